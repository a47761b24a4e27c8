/*
 * A small addr2line: lookup [-C] FILE [--sup FILE] ADDRESS.. Prints for each address the frames there,
 * from the innermost inlined function out, one a line. With no address, those of standard input are
 * taken, one a line.
 */
#include "addr2line_file.h"

#include <stdio.h>
#include <stdlib.h>
#include <string.h>

#define FRAMES 64
#define TEXT 65536

static addr2line_frame frames[FRAMES];
static char text[TEXT];

static void print_status(const char *what, addr2line_status status)
{
    char says[80];
    size_t needed;
    if (addr2line_status_text(status, says, sizeof says, &needed) != ADDR2LINE_OK) {
        strcpy(says, "unknown status");
    }
    fprintf(stderr, "%s: %s\n", what, says);
}

static void print_frame(const addr2line_frame *frame)
{
    const char *function = ADDR2LINE_TEXT(text, frame->function);
    const char *path = ADDR2LINE_TEXT(text, frame->location.file);
    printf("%s at %s:", function == NULL ? "??" : function, path == NULL ? "??" : path);
    if (frame->location.line.is_there) {
        printf("%lu\n", (unsigned long)frame->location.line.value);
    } else {
        printf("?\n");
    }
}

static int print_address(addr2line_file *file, uint64_t address, uint32_t flags)
{
    size_t count;
    size_t needed;
    size_t i;
    addr2line_status status = addr2line_file_find_frames(file, address, flags, frames, FRAMES, &count,
                                                         text, TEXT, &needed);
    if (status != ADDR2LINE_OK) {
        print_status("lookup", status);
        return 1;
    }
    if (count == 0) {
        printf("?? at ??:0\n");
    }
    for (i = 0; i < count; i++) {
        print_frame(&frames[i]);
    }
    return 0;
}

static int print_lines(addr2line_file *file, uint32_t flags)
{
    char line[64];
    int failed = 0;
    while (fgets(line, sizeof line, stdin) != NULL) {
        failed |= print_address(file, strtoul(line, NULL, 16), flags);
    }
    return failed;
}

int main(int argc, char **argv)
{
    addr2line_file file = ADDR2LINE_FILE_INIT;
    addr2line_status status;
    const char *path = NULL;
    const char *sup = NULL;
    uint32_t flags = 0;
    int failed = 0;
    int at = 1;
    if (at < argc && strcmp(argv[at], "-C") == 0) {
        flags = ADDR2LINE_DEMANGLE;
        at += 1;
    }
    if (at < argc) {
        path = argv[at];
        at += 1;
    }
    if (at + 1 < argc && strcmp(argv[at], "--sup") == 0) {
        sup = argv[at + 1];
        at += 2;
    }
    if (path == NULL) {
        fprintf(stderr, "usage: lookup [-C] FILE [--sup FILE] ADDRESS..\n");
        return 2;
    }
    status = addr2line_file_open(path, sup, &file);
    if (status != ADDR2LINE_OK) {
        print_status(path, status);
        return 1;
    }
    if (at == argc) {
        failed = print_lines(&file, flags);
    }
    for (; at < argc; at++) {
        failed |= print_address(&file, strtoul(argv[at], NULL, 16), flags);
    }
    addr2line_file_close(&file);
    return failed;
}
