/*
 * Files for addr2line.h, by POSIX calls: paths are mapped or read, and loads are answered by the split files
 * that they name. This part is plain C, and not proved.
 */
#ifndef ADDR2LINE_FILE_H
#define ADDR2LINE_FILE_H

#include "addr2line.h"

#ifdef __cplusplus
extern "C" {
#endif

/* The bytes of a file, of those of an open file. */
struct addr2line_mapped;

/* An open file, with all bytes that it needs. It must be ADDR2LINE_FILE_INIT before its first use. */
typedef struct addr2line_file {
    addr2line_handle handle; /* for the calls of addr2line.h that aren't here */
    struct addr2line_mapped *mapped;
    uint32_t flags; /* those that it was opened by */
    int32_t error; /* what addr2line_file_errno gives */
} addr2line_file;

#define ADDR2LINE_FILE_INIT { ADDR2LINE_INIT, NULL, 0, 0 }

/*
 * Files are mapped and not read, where the system can: then no byte is copied, and those alone are read that
 * are needed. But no other program may write to a file as long as it is open, and where one cuts it this
 * process gets SIGBUS. A new file may take its place.
 */
#define ADDR2LINE_FILE_MAP 256u

/*
 * Opens the file at a path, with the supplementary file at sup_path, if that isn't NULL; `flags` are bits: 0,
 * ADDR2LINE_DECOMPRESS, ADDR2LINE_FILE_MAP or both. What was open is closed first. ADDR2LINE_BAD_FLAGS where
 * another bit is set. ADDR2LINE_CANNOT_READ where a file isn't a regular one or can't be read, else as
 * addr2line_open_with. Of the pointers here only sup_path may be NULL.
 */
addr2line_status addr2line_file_open_with(const char *path, const char *sup_path, uint32_t flags,
                                          addr2line_file *file);

/* The same by ADDR2LINE_FILE_MAP. */
addr2line_status addr2line_file_open(const char *path, const char *sup_path, addr2line_file *file);

/*
 * The errno of the last path that couldn't be read, that of a split file too; EINVAL for what is no regular
 * file. 0 where all could since the file was last opened.
 */
int addr2line_file_errno(const addr2line_file *file);

/* Closes a file, and gives all its bytes back. */
void addr2line_file_close(addr2line_file *file);

/*
 * addr2line_find_frames where each load is answered by the file that it names: its path where that
 * begins with '/', else its directory, a '/' unless that is empty or ends in one, and its path. A file
 * that isn't there, a faulty one and one of another unit are answered none. ADDR2LINE_PATH_NOT_UTF8
 * leaves the load waiting.
 */
addr2line_status addr2line_file_find_frames(addr2line_file *file, uint64_t address, uint32_t flags,
                                            addr2line_frame *frames, size_t capacity, size_t *count,
                                            char *text, size_t text_size, size_t *needed);

/* Answers each load that waits by files. */
addr2line_status addr2line_file_answer_loads(addr2line_file *file);

#ifdef __cplusplus
}
#endif

#endif
