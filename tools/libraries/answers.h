/*
 * What the programs of tools/time_libraries share: they read addresses from standard input, in hexadecimal, one a line,
 * and count what a library answers. A program whose last word is `answers` prints, for each address, function, file and
 * line of the innermost frame, with tabs between. At the end each prints how many addresses have a function there, how
 * many a file and a line, how many frames all have, and the bytes of the names and paths of these.
 */
#ifndef ANSWERS_H
#define ANSWERS_H

#include <inttypes.h>
#include <stdint.h>
#include <stdio.h>
#include <stdlib.h>
#include <string.h>

static int are_printed, has_innermost, is_refused;
static uint64_t functions, lines, frames, bytes;

static inline void begin_answers(int argc, char **argv)
{
    are_printed = argc > 1 && strcmp(argv[argc - 1], "answers") == 0;
}

static inline int next_address(uint64_t *address)
{
    char line[64];
    if (fgets(line, sizeof line, stdin) == NULL) {
        return 0;
    }
    *address = strtoull(line, NULL, 16);
    has_innermost = 0;
    return 1;
}

static inline void add_innermost(const char *function, const char *file, uint64_t line)
{
    has_innermost = 1;
    functions += function != NULL;
    lines += file != NULL && line != 0;
    if (are_printed) {
        printf("%s\t%s\t%" PRIu64 "\n", function == NULL ? "?" : function, file == NULL ? "?" : file, line);
    }
}

/* The next frame of an address, the innermost first; NULL and 0 for what isn't known. */
static inline void add_frame(const char *function, const char *file, uint64_t line)
{
    if (!has_innermost) {
        add_innermost(function, file, line);
    }
    frames += function != NULL || file != NULL;
    bytes += (function == NULL ? 0 : strlen(function)) + (file == NULL ? 0 : strlen(file));
}

/* A lookup that was refused: the first one is told. */
static inline void add_refusal(uint64_t address, const char *why)
{
    if (!is_refused) {
        fprintf(stderr, "0x%" PRIx64 ": %s\n", address, why);
    }
    is_refused = 1;
}

/* After the last frame of an address. */
static inline void end_address(void)
{
    if (!has_innermost) {
        add_innermost(NULL, NULL, 0);
    }
}

static inline void end_answers(void)
{
    printf("%" PRIu64 " %" PRIu64 " %" PRIu64 " %" PRIu64 "\n", functions, lines, frames, bytes);
}

#endif
