/*
 * Prints its own backtrace, with the functions that the compiler inlined. Needs glibc, for backtrace() and
 * dl_iterate_phdr().
 */
#ifndef _GNU_SOURCE
#define _GNU_SOURCE
#endif

#include "addr2line_file.h"

#include <execinfo.h>
#include <link.h>
#include <stdio.h>
#include <string.h>

#define DEPTH 64
#define FRAMES 64
#define TEXT 65536

static addr2line_file self = ADDR2LINE_FILE_INIT;
static addr2line_frame frames[FRAMES];
static char text[TEXT];
static uint64_t base;

/* The first object is the program itself. */
static int take_base(struct dl_phdr_info *info, size_t size, void *data)
{
    (void)size;
    *(uint64_t *)data = (uint64_t)info->dlpi_addr;
    return 1;
}

/* The part of a path after its last slash. */
static const char *last_part(const char *path)
{
    const char *slash = strrchr(path, '/');
    return slash == NULL ? path : slash + 1;
}

static void print_frame(int depth, const addr2line_frame *frame, int is_inlined)
{
    const char *function = ADDR2LINE_TEXT(text, frame->function);
    const char *path = ADDR2LINE_TEXT(text, frame->location.file);
    printf("%2d  %-12s %s:%lu%s\n", depth, function == NULL ? "??" : function,
           path == NULL ? "??" : last_part(path), (unsigned long)frame->location.line.value,
           is_inlined ? "  (inlined)" : "");
}

static void print_backtrace(void)
{
    void *stack[DEPTH];
    int depth = backtrace(stack, DEPTH);
    int i;
    for (i = 0; i < depth; i++) {
        /* A call returns to the instruction after it. */
        uint64_t address = (uint64_t)(size_t)stack[i] - 1 - base;
        size_t count;
        size_t needed;
        size_t k;
        if (addr2line_file_find_frames(&self, address, 0, frames, FRAMES, &count, text, TEXT, &needed)
            != ADDR2LINE_OK) {
            continue;
        }
        for (k = 0; k < count; k++) {
            print_frame(i, &frames[k], k + 1 < count);
        }
    }
}

static volatile int depth_wanted = 3;

/* Written after each call, so that no compiler makes a loop of the recursion. */
static volatile int reached;

static __inline__ __attribute__((always_inline)) void inlined_into_descend(int left)
{
    if (left == 0) {
        print_backtrace();
    }
}

static __attribute__((noinline)) int descend(int left)
{
    int below = 0;
    inlined_into_descend(left);
    if (left > 0) {
        below = descend(left - 1);
        reached = below;
    }
    return below + left;
}

int main(void)
{
    addr2line_status status = addr2line_file_open("/proc/self/exe", NULL, &self);
    if (status != ADDR2LINE_OK) {
        fprintf(stderr, "status %lu\n", (unsigned long)status);
        return 1;
    }
    dl_iterate_phdr(take_base, &base);
    descend(depth_wanted);
    addr2line_file_close(&self);
    return 0;
}
