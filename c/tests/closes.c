/* Counts what the allocator holds before a handle is opened and after it is closed: closes AREA COMPRESSED SPLIT ADDRESS
 *
 * AREA is crates/addr2line_bin/data/area.elf, COMPRESSED the same with its debug sections compressed by zlib, and SPLIT a
 * program with split files beside it, of which one has the address. Prints the first thing that doesn't hold, with
 * status 1. It stands before the C library's malloc, so it isn't built with a sanitizer. */
#include <addr2line_file.h>

#include <errno.h>
#include <stdio.h>
#include <stdlib.h>
#include <string.h>

#define CHECK(holds)                                          \
    do {                                                      \
        if (!(holds)) {                                       \
            printf("%s:%d: %s\n", __FILE__, __LINE__, #holds); \
            exit(1);                                          \
        }                                                     \
    } while (0)

extern void *__libc_malloc(size_t);
extern void *__libc_calloc(size_t, size_t);
extern void *__libc_realloc(void *, size_t);
extern void *__libc_memalign(size_t, size_t);
extern void __libc_free(void *);

/* How many blocks were given and not taken back. */
static long blocks;

static void *counted(void *block)
{
    blocks += block != NULL;
    return block;
}

void *malloc(size_t size)
{
    return counted(__libc_malloc(size));
}

void *calloc(size_t count, size_t size)
{
    return counted(__libc_calloc(count, size));
}

void *aligned_alloc(size_t align, size_t size)
{
    return counted(__libc_memalign(align, size));
}

int posix_memalign(void **made, size_t align, size_t size)
{
    void *block = counted(__libc_memalign(align, size));
    if (block == NULL) {
        return ENOMEM;
    }
    *made = block;
    return 0;
}

void *realloc(void *old, size_t size)
{
    void *block = __libc_realloc(old, size);
    if (old == NULL) {
        return counted(block);
    }
    /* A size of 0 gives the old block back. */
    blocks -= block == NULL && size == 0;
    return block;
}

void free(void *block)
{
    blocks -= block != NULL;
    __libc_free(block);
}

/* An address of area.elf with four frames. */
#define INLINED 0x40014b

static addr2line_frame frames[64];
static addr2line_span spans[64];
static char text[65536];

struct bytes {
    unsigned char *at;
    size_t size;
};

static struct bytes read_bytes(const char *path)
{
    struct bytes read = { NULL, 0 };
    FILE *file = fopen(path, "rb");
    CHECK(file != NULL && fseek(file, 0, SEEK_END) == 0);
    read.size = (size_t)ftell(file);
    read.at = (unsigned char *)malloc(read.size);
    rewind(file);
    CHECK(read.at != NULL && fread(read.at, 1, read.size, file) == read.size);
    fclose(file);
    return read;
}

/* Every lookup, with names as they are and as they stand in the source, then all units. */
static void look_up(addr2line_handle *handle, uint64_t address)
{
    addr2line_location location;
    addr2line_symbol symbol;
    uint64_t begin, end;
    size_t count, needed;
    uint32_t flags;
    CHECK(addr2line_find_location(handle, address, &location, text, sizeof text, &needed) == ADDR2LINE_OK);
    for (flags = 0; flags < 4; flags++) {
        CHECK(addr2line_find_frames(handle, address, flags, frames, 64, &count, text, sizeof text, &needed) == ADDR2LINE_OK);
    }
    CHECK(addr2line_locations(handle, address, address + 64, 0, spans, 64, &count, text, sizeof text, &needed) == ADDR2LINE_OK);
    CHECK(addr2line_find_symbol(handle, address, &symbol, text, sizeof text, &needed) == ADDR2LINE_OK);
    CHECK(addr2line_section_range(handle, ".text", 5, &begin, &end) == ADDR2LINE_OK);
    CHECK(addr2line_preload(handle, address) == ADDR2LINE_OK);
    CHECK(addr2line_parse_all(handle) == ADDR2LINE_OK);
}

/* A handle that is opened, used and closed; opened twice; opened anew by what is refused. */
static void close_all(struct bytes area, struct bytes compressed)
{
    addr2line_handle handle = ADDR2LINE_INIT;
    long before = blocks;
    CHECK(addr2line_open(area.at, area.size, NULL, 0, &handle) == ADDR2LINE_OK && blocks > before);
    addr2line_close(&handle);
    CHECK(blocks == before);
    CHECK(addr2line_open(area.at, area.size, NULL, 0, &handle) == ADDR2LINE_OK);
    look_up(&handle, INLINED);
    CHECK(addr2line_open(area.at, area.size, area.at, area.size, &handle) == ADDR2LINE_OK);
    look_up(&handle, INLINED);
    CHECK(blocks > before);
    addr2line_close(&handle);
    addr2line_close(&handle);
    CHECK(blocks == before);
    CHECK(addr2line_open(area.at, area.size, NULL, 0, &handle) == ADDR2LINE_OK);
    CHECK(addr2line_open("no file", 7, NULL, 0, &handle) == ADDR2LINE_NOT_ELF && blocks == before);
    CHECK(addr2line_open(area.at, area.size, NULL, 0, &handle) == ADDR2LINE_OK);
    CHECK(addr2line_open(area.at, area.size, "no file", 7, &handle) == ADDR2LINE_NOT_ELF && blocks == before);
    CHECK(addr2line_open(area.at, area.size, NULL, 0, &handle) == ADDR2LINE_OK);
    CHECK(addr2line_open(compressed.at, compressed.size, NULL, 0, &handle) == ADDR2LINE_COMPRESSED_SECTION);
    CHECK(blocks == before);
    CHECK(addr2line_open(area.at, area.size, NULL, 0, &handle) == ADDR2LINE_OK);
    CHECK(addr2line_open_with(area.at, area.size, NULL, 0, 2, &handle) == ADDR2LINE_BAD_FLAGS && blocks == before);
    CHECK(addr2line_open_with(compressed.at, compressed.size, NULL, 0, ADDR2LINE_DECOMPRESS, &handle) == ADDR2LINE_OK);
    look_up(&handle, INLINED);
    addr2line_close(&handle);
    CHECK(blocks == before);
}

/* A handle whose load is listed, answered none, forgotten and answered by another file; a load that waits still. */
static void close_loads(struct bytes split, struct bytes area, uint64_t address)
{
    addr2line_handle handle = ADDR2LINE_INIT;
    addr2line_load load;
    size_t count, needed;
    long before = blocks;
    CHECK(addr2line_open(split.at, split.size, NULL, 0, &handle) == ADDR2LINE_OK);
    CHECK(addr2line_preload(&handle, address) == ADDR2LINE_WAITS);
    CHECK(addr2line_get_load(&handle, &load, text, sizeof text, &needed) == ADDR2LINE_OK);
    CHECK(addr2line_answer_load(&handle, load.token, NULL, 0) == ADDR2LINE_OK);
    CHECK(addr2line_find_frames(&handle, address, 0, frames, 64, &count, text, sizeof text, &needed) == ADDR2LINE_OK);
    CHECK(addr2line_forget(&handle, load.token) == ADDR2LINE_OK);
    CHECK(addr2line_find_frames(&handle, address, 0, frames, 64, &count, text, sizeof text, &needed) == ADDR2LINE_WAITS);
    CHECK(addr2line_answer_load(&handle, load.token, area.at, area.size) == ADDR2LINE_OTHER_UNIT);
    CHECK(addr2line_forget(&handle, load.token) == ADDR2LINE_OK);
    CHECK(addr2line_preload(&handle, address) == ADDR2LINE_WAITS && blocks > before);
    addr2line_close(&handle);
    CHECK(blocks == before);
}

/* The same by paths, with the split files that loads name. */
static void close_files(const char *area, const char *split, uint64_t address)
{
    addr2line_file file = ADDR2LINE_FILE_INIT;
    size_t count, needed;
    long before = blocks;
    CHECK(addr2line_file_open_with(area, NULL, 0, &file) == ADDR2LINE_OK);
    CHECK(addr2line_file_open(split, NULL, &file) == ADDR2LINE_OK);
    CHECK(addr2line_file_find_frames(&file, address, 0, frames, 64, &count, text, sizeof text, &needed) == ADDR2LINE_OK);
    CHECK(count != 0 && blocks > before);
    addr2line_file_close(&file);
    CHECK(blocks == before);
}

int main(int argc, char **argv)
{
    struct bytes area, compressed, split;
    uint64_t address;
    int turn;
    CHECK(argc == 5);
    area = read_bytes(argv[1]);
    compressed = read_bytes(argv[2]);
    split = read_bytes(argv[3]);
    address = strtoul(argv[4], NULL, 16);
    for (turn = 0; turn < 2; turn++) {
        close_all(area, compressed);
        close_loads(split, area, address);
        close_files(argv[1], argv[3], address);
    }
    free(area.at);
    free(compressed.at);
    free(split.at);
    return 0;
}
