/* Files for addr2line.h: see addr2line_file.h. */
#ifndef _POSIX_C_SOURCE
#define _POSIX_C_SOURCE 200809L
#endif

#include "addr2line_file.h"

#include <errno.h>
#include <fcntl.h>
#include <stdlib.h>
#include <string.h>
#include <sys/mman.h>
#include <sys/stat.h>
#include <unistd.h>

struct addr2line_mapped {
    void *bytes;
    size_t size;
    int is_mapped;
    struct addr2line_mapped *next;
};

/* Reads so many bytes of an open file; errno where it fails, EIO where the file has fewer by then. */
static int read_whole(int fd, unsigned char *bytes, size_t size)
{
    size_t done = 0;
    while (done < size) {
        ssize_t got = read(fd, bytes + done, size - done);
        if (got < 0 && errno == EINTR) {
            continue;
        }
        if (got <= 0) {
            return got < 0 ? errno : EIO;
        }
        done += (size_t)got;
    }
    return 0;
}

/* The bytes of an open file that has some, by a mapping where that is asked for and can be; 0 or errno. */
static int get_bytes(int fd, uint32_t flags, struct addr2line_mapped *node)
{
    int error;
    if ((flags & ADDR2LINE_FILE_MAP) != 0) {
        node->bytes = mmap(NULL, node->size, PROT_READ, MAP_PRIVATE, fd, 0);
        if (node->bytes != MAP_FAILED) {
            node->is_mapped = 1;
            return 0;
        }
    }
    node->bytes = malloc(node->size);
    if (node->bytes == NULL) {
        return ENOMEM;
    }
    error = read_whole(fd, (unsigned char *)node->bytes, node->size);
    if (error != 0) {
        free(node->bytes);
    }
    return error;
}

/* The bytes of an open file, none of one without a byte; 0 or errno. */
static int get_file(int fd, uint32_t flags, struct addr2line_mapped *node)
{
    struct stat about;
    if (fstat(fd, &about) != 0) {
        return errno;
    }
    if (!S_ISREG(about.st_mode)) {
        return EINVAL;
    }
    if ((uintmax_t)about.st_size > SIZE_MAX) {
        return EFBIG;
    }
    node->bytes = NULL;
    node->is_mapped = 0;
    node->size = (size_t)about.st_size;
    return node->size == 0 ? 0 : get_bytes(fd, flags, node);
}

/* What becomes of a path that couldn't be read. */
static addr2line_status refuse(addr2line_file *file, struct addr2line_mapped *node, int error)
{
    free(node);
    if (error == ENOMEM) {
        return ADDR2LINE_OUT_OF_MEMORY;
    }
    file->error = error;
    return ADDR2LINE_CANNOT_READ;
}

/* The bytes of the file at a path; they go when the file is closed. */
static addr2line_status get_path(const char *path, addr2line_file *file, struct addr2line_mapped **mapped)
{
    struct addr2line_mapped *node;
    int error, fd;
    *mapped = NULL;
    node = (struct addr2line_mapped *)malloc(sizeof *node);
    if (node == NULL) {
        return ADDR2LINE_OUT_OF_MEMORY;
    }
    /* Opening a named pipe would wait for its writer, and debug information chooses the paths of split files. */
    fd = open(path, O_RDONLY | O_NONBLOCK | O_CLOEXEC);
    if (fd < 0) {
        return refuse(file, node, errno);
    }
    error = get_file(fd, file->flags, node);
    close(fd);
    if (error != 0) {
        return refuse(file, node, error);
    }
    node->next = file->mapped;
    file->mapped = node;
    *mapped = node;
    return ADDR2LINE_OK;
}

addr2line_status addr2line_file_open_with(const char *path, const char *sup_path, uint32_t flags,
                                          addr2line_file *file)
{
    struct addr2line_mapped *main_file;
    struct addr2line_mapped *sup_file = NULL;
    addr2line_status status;
    if (path == NULL || file == NULL) {
        return ADDR2LINE_NO_PLACE;
    }
    addr2line_file_close(file);
    if ((flags & ~(ADDR2LINE_DECOMPRESS | ADDR2LINE_FILE_MAP)) != 0) {
        return ADDR2LINE_BAD_FLAGS;
    }
    file->flags = flags;
    status = get_path(path, file, &main_file);
    if (status == ADDR2LINE_OK && sup_path != NULL) {
        status = get_path(sup_path, file, &sup_file);
        if (status == ADDR2LINE_OK && sup_file->size == 0) {
            status = ADDR2LINE_NOT_ELF;
        }
    }
    if (status == ADDR2LINE_OK) {
        status = addr2line_open_with(main_file->bytes, main_file->size,
                                     sup_file == NULL ? NULL : sup_file->bytes,
                                     sup_file == NULL ? 0 : sup_file->size,
                                     flags & ADDR2LINE_DECOMPRESS, &file->handle);
    }
    if (status != ADDR2LINE_OK) {
        int error = file->error;
        addr2line_file_close(file);
        file->error = error;
    }
    return status;
}

addr2line_status addr2line_file_open(const char *path, const char *sup_path, addr2line_file *file)
{
    return addr2line_file_open_with(path, sup_path, ADDR2LINE_FILE_MAP, file);
}

int addr2line_file_errno(const addr2line_file *file)
{
    return file == NULL ? 0 : file->error;
}

void addr2line_file_close(addr2line_file *file)
{
    if (file == NULL) {
        return;
    }
    addr2line_close(&file->handle);
    while (file->mapped != NULL) {
        struct addr2line_mapped *node = file->mapped;
        file->mapped = node->next;
        if (node->is_mapped) {
            munmap(node->bytes, node->size);
        } else {
            free(node->bytes);
        }
        free(node);
    }
    file->error = 0;
}

/* How many bytes follow the first byte of a character in UTF-8, -1 for a byte that begins none. */
static int more_bytes(unsigned char first)
{
    if (first < 0x80) {
        return 0;
    }
    if (first >= 0xc2 && first <= 0xdf) {
        return 1;
    }
    if (first >= 0xe0 && first <= 0xef) {
        return 2;
    }
    return first >= 0xf0 && first <= 0xf4 ? 3 : -1;
}

/* Whether the second byte may follow the first (Unicode, table 3-7). */
static int may_follow(unsigned char first, unsigned char second)
{
    unsigned char least = 0x80;
    unsigned char greatest = 0xbf;
    if (first == 0xe0) {
        least = 0xa0;
    } else if (first == 0xed) {
        greatest = 0x9f;
    } else if (first == 0xf0) {
        least = 0x90;
    } else if (first == 0xf4) {
        greatest = 0x8f;
    }
    return second >= least && second <= greatest;
}

static int is_utf8(const char *text)
{
    const unsigned char *at = (const unsigned char *)text;
    while (*at != 0) {
        int more = more_bytes(*at);
        int i;
        if (more < 0 || (more > 0 && !may_follow(at[0], at[1]))) {
            return 0;
        }
        for (i = 2; i <= more; i++) {
            if (at[i] < 0x80 || at[i] > 0xbf) {
                return 0;
            }
        }
        at += 1 + more;
    }
    return 1;
}

/* The path of a split file, NULL where memory was refused. */
static char *join(const char *directory, const char *name)
{
    size_t front = directory == NULL || name[0] == '/' ? 0 : strlen(directory);
    size_t length = strlen(name);
    char *path = (char *)malloc(front + 1 + length + 1);
    size_t used = 0;
    if (path == NULL) {
        return NULL;
    }
    if (front != 0) {
        memcpy(path, directory, front);
        used = front;
        if (path[used - 1] != '/') {
            path[used] = '/';
            used += 1;
        }
    }
    memcpy(path + used, name, length + 1);
    return path;
}

/* Answers a load by the file at a path. */
static addr2line_status answer_by_path(addr2line_file *file, uint64_t token, const char *path)
{
    struct addr2line_mapped *mapped;
    addr2line_status status;
    if (!is_utf8(path)) {
        return ADDR2LINE_PATH_NOT_UTF8;
    }
    status = get_path(path, file, &mapped);
    if (status == ADDR2LINE_OUT_OF_MEMORY) {
        return status;
    }
    return addr2line_answer_load(&file->handle, token, mapped == NULL ? NULL : mapped->bytes,
                                 mapped == NULL ? 0 : mapped->size);
}

/* Answers a load, whose texts stand in a buffer. */
static addr2line_status answer(addr2line_file *file, const addr2line_load *load, const char *text)
{
    const char *name = ADDR2LINE_TEXT(text, load->path);
    addr2line_status status;
    char *path;
    if (name == NULL) {
        return addr2line_answer_load(&file->handle, load->token, NULL, 0);
    }
    path = join(ADDR2LINE_TEXT(text, load->directory), name);
    if (path == NULL) {
        return ADDR2LINE_OUT_OF_MEMORY;
    }
    status = answer_by_path(file, load->token, path);
    free(path);
    return status;
}

/* Answers the first load that waits. */
static addr2line_status answer_first(addr2line_file *file)
{
    addr2line_load load;
    addr2line_status status;
    size_t needed = 0;
    char *text;
    status = addr2line_get_load(&file->handle, &load, NULL, 0, &needed);
    if (status != ADDR2LINE_OK && status != ADDR2LINE_TOO_SMALL) {
        return status;
    }
    text = (char *)malloc(needed + 1);
    if (text == NULL) {
        return ADDR2LINE_OUT_OF_MEMORY;
    }
    status = addr2line_get_load(&file->handle, &load, text, needed, &needed);
    if (status == ADDR2LINE_OK) {
        status = answer(file, &load, text);
    }
    free(text);
    return status;
}

addr2line_status addr2line_file_answer_loads(addr2line_file *file)
{
    if (file == NULL) {
        return ADDR2LINE_NO_PLACE;
    }
    for (;;) {
        addr2line_status status = answer_first(file);
        if (status == ADDR2LINE_NOTHING) {
            return ADDR2LINE_OK;
        }
        if (status == ADDR2LINE_OUT_OF_MEMORY || status == ADDR2LINE_PATH_NOT_UTF8
            || status == ADDR2LINE_CLOSED) {
            return status;
        }
    }
}

addr2line_status addr2line_file_find_frames(addr2line_file *file, uint64_t address, uint32_t flags,
                                            addr2line_frame *frames, size_t capacity, size_t *count,
                                            char *text, size_t text_size, size_t *needed)
{
    if (file == NULL) {
        return ADDR2LINE_NO_PLACE;
    }
    for (;;) {
        addr2line_status status = addr2line_find_frames(&file->handle, address, flags, frames, capacity,
                                                        count, text, text_size, needed);
        if (status != ADDR2LINE_WAITS) {
            return status;
        }
        status = addr2line_file_answer_loads(file);
        if (status != ADDR2LINE_OK) {
            return status;
        }
    }
}
