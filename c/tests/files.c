/* Tests of flags, of places and of errno in addr2line.h and addr2line_file.h: files AREA COMPRESSED PIPE
 *
 * AREA is crates/addr2line_bin/data/area.elf, COMPRESSED the same with its debug sections compressed by zlib, and PIPE
 * a named pipe that nobody writes to. Prints the first thing that doesn't hold, with status 1. */
#include <addr2line_file.h>

#include <errno.h>
#include <stdio.h>
#include <stdlib.h>
#include <string.h>

#define CHECK(holds)                                          \
    do {                                                      \
        if (!(holds)) {                                       \
            printf("%s:%d: %s\n", __FILE__, __LINE__, #holds); \
            exit(1);                                          \
        }                                                     \
    } while (0)

/* An address of area.elf with four frames. */
#define INLINED 0x40014b

static const char *const four[] = { "area", "room", "measure", "_start" };

/* Whether a file of this process is mapped at that path. */
static int is_mapped(const char *path)
{
    char line[8192];
    int found = 0;
    FILE *maps = fopen("/proc/self/maps", "r");
    CHECK(maps != NULL);
    while (fgets(line, sizeof line, maps) != NULL) {
        found |= strstr(line, path) != NULL;
    }
    fclose(maps);
    return found;
}

static void check_frames(addr2line_file *file)
{
    static addr2line_frame frames[8];
    static char text[4096];
    size_t count, needed, i;
    CHECK(addr2line_file_find_frames(file, INLINED, 0, frames, 8, &count, text, sizeof text, &needed) == ADDR2LINE_OK);
    CHECK(count == 4);
    for (i = 0; i < count; i++) {
        CHECK(frames[i].function.is_there && strcmp(text + frames[i].function.offset, four[i]) == 0);
    }
}

/* Each way of opening a file gives the same frames, and maps it only where that is asked for. */
static void check_ways(const char *area, const char *compressed)
{
    addr2line_file file = ADDR2LINE_FILE_INIT;
    CHECK(addr2line_file_open(area, NULL, &file) == ADDR2LINE_OK && is_mapped("area.elf"));
    check_frames(&file);
    CHECK(addr2line_file_open_with(area, NULL, 0, &file) == ADDR2LINE_OK && !is_mapped("area.elf"));
    check_frames(&file);
    CHECK(addr2line_file_open_with(area, NULL, ADDR2LINE_FILE_MAP, &file) == ADDR2LINE_OK && is_mapped("area.elf"));
    check_frames(&file);
    CHECK(addr2line_file_open(compressed, NULL, &file) == ADDR2LINE_COMPRESSED_SECTION);
    CHECK(addr2line_file_errno(&file) == 0 && !is_mapped("area.elf"));
    CHECK(addr2line_file_open_with(compressed, NULL, ADDR2LINE_DECOMPRESS, &file) == ADDR2LINE_OK);
    check_frames(&file);
    CHECK(addr2line_file_open_with(compressed, NULL, ADDR2LINE_DECOMPRESS | ADDR2LINE_FILE_MAP, &file) == ADDR2LINE_OK);
    check_frames(&file);
    addr2line_file_close(&file);
}

/* Bits that are no flags, of opening and of lookups. */
static void check_bad_flags(const char *area)
{
    addr2line_file file = ADDR2LINE_FILE_INIT;
    size_t count = 7, needed = 7;
    unsigned bit;
    for (bit = 1; bit < 32; bit++) {
        uint32_t flags = (uint32_t)1 << bit;
        if (flags != ADDR2LINE_FILE_MAP) {
            CHECK(addr2line_file_open_with(area, NULL, flags | ADDR2LINE_DECOMPRESS, &file) == ADDR2LINE_BAD_FLAGS);
        }
        CHECK(addr2line_open_with("", 0, NULL, 0, flags, &file.handle) == ADDR2LINE_BAD_FLAGS);
        CHECK(file.handle.at == NULL);
    }
    CHECK(addr2line_file_open(area, NULL, &file) == ADDR2LINE_OK);
    for (bit = 2; bit < 32; bit++) {
        uint32_t flags = ((uint32_t)1 << bit) | ADDR2LINE_DEMANGLE;
        CHECK(addr2line_find_frames(&file.handle, INLINED, flags, NULL, 0, &count, NULL, 0, &needed) == ADDR2LINE_BAD_FLAGS);
        CHECK(count == 0 && needed == 0);
    }
    check_frames(&file);
    addr2line_file_close(&file);
}

/* Each place that a call needs, left out in turn: nothing is done. */
static void check_places(const char *area)
{
    addr2line_file file = ADDR2LINE_FILE_INIT;
    addr2line_handle *handle = &file.handle;
    addr2line_frame frames[4];
    addr2line_span spans[4];
    addr2line_location location;
    addr2line_symbol symbol;
    addr2line_load load;
    char text[512];
    uint64_t begin = 7, end = 7;
    size_t count = 7, needed = 7;
    const uint32_t none = ADDR2LINE_NO_PLACE;
    CHECK(addr2line_file_open(area, NULL, &file) == ADDR2LINE_OK);
    CHECK(addr2line_status_text(0, NULL, 9, &needed) == none && addr2line_status_text(0, text, 9, NULL) == none);
    CHECK(addr2line_open("", 0, NULL, 0, NULL) == none && addr2line_open_with("", 0, NULL, 0, 0, NULL) == none);
    CHECK(addr2line_open(NULL, 1, NULL, 0, handle) == none && addr2line_open("", 0, NULL, 1, handle) == none);
    CHECK(addr2line_open_with(NULL, 1, NULL, 0, 0, handle) == none);
    CHECK(addr2line_open_with("", 0, NULL, 1, 0, handle) == none);
    CHECK(addr2line_find_location(NULL, INLINED, &location, text, 9, &needed) == none);
    CHECK(addr2line_find_location(handle, INLINED, NULL, text, 9, &needed) == none);
    CHECK(addr2line_find_location(handle, INLINED, &location, NULL, 9, &needed) == none);
    CHECK(addr2line_find_location(handle, INLINED, &location, text, 9, NULL) == none);
    CHECK(addr2line_find_frames(NULL, INLINED, 0, frames, 4, &count, text, 9, &needed) == none);
    CHECK(addr2line_find_frames(handle, INLINED, 0, NULL, 4, &count, text, 9, &needed) == none);
    CHECK(addr2line_find_frames(handle, INLINED, 0, frames, 4, NULL, text, 9, &needed) == none);
    CHECK(addr2line_find_frames(handle, INLINED, 0, frames, 4, &count, NULL, 9, &needed) == none);
    CHECK(addr2line_find_frames(handle, INLINED, 0, frames, 4, &count, text, 9, NULL) == none);
    CHECK(addr2line_get_load(NULL, &load, text, 9, &needed) == none && addr2line_get_load(handle, NULL, text, 9, &needed) == none);
    CHECK(addr2line_get_load(handle, &load, NULL, 9, &needed) == none && addr2line_get_load(handle, &load, text, 9, NULL) == none);
    CHECK(addr2line_answer_load(NULL, 0, "", 0) == none && addr2line_answer_load(handle, 0, NULL, 1) == none);
    CHECK(addr2line_forget(NULL, 0) == none && addr2line_preload(NULL, 0) == none && addr2line_parse_all(NULL) == none);
    CHECK(addr2line_locations(NULL, 0, 1, 0, spans, 4, &count, text, 9, &needed) == none);
    CHECK(addr2line_locations(handle, 0, 1, 0, NULL, 4, &count, text, 9, &needed) == none);
    CHECK(addr2line_locations(handle, 0, 1, 0, spans, 4, NULL, text, 9, &needed) == none);
    CHECK(addr2line_locations(handle, 0, 1, 0, spans, 4, &count, NULL, 9, &needed) == none);
    CHECK(addr2line_locations(handle, 0, 1, 0, spans, 4, &count, text, 9, NULL) == none);
    CHECK(addr2line_find_symbol(NULL, INLINED, &symbol, text, 9, &needed) == none);
    CHECK(addr2line_find_symbol(handle, INLINED, NULL, text, 9, &needed) == none);
    CHECK(addr2line_find_symbol(handle, INLINED, &symbol, NULL, 9, &needed) == none);
    CHECK(addr2line_find_symbol(handle, INLINED, &symbol, text, 9, NULL) == none);
    CHECK(addr2line_section_range(NULL, ".text", 5, &begin, &end) == none);
    CHECK(addr2line_section_range(handle, NULL, 5, &begin, &end) == none);
    CHECK(addr2line_section_range(handle, ".text", 5, NULL, &end) == none);
    CHECK(addr2line_section_range(handle, ".text", 5, &begin, NULL) == none);
    CHECK(addr2line_file_open(NULL, NULL, &file) == none && addr2line_file_open(area, NULL, NULL) == none);
    CHECK(addr2line_file_answer_loads(NULL) == none && addr2line_file_errno(NULL) == 0);
    CHECK(addr2line_file_find_frames(NULL, INLINED, 0, frames, 4, &count, text, 9, &needed) == none);
    CHECK(count == 7 && needed == 7 && begin == 7 && end == 7);
    addr2line_close(NULL);
    addr2line_file_close(NULL);
    /* A NULL for nothing is as good as any other pointer. */
    CHECK(addr2line_find_frames(handle, INLINED, 0, NULL, 0, &count, NULL, 0, &needed) == ADDR2LINE_TOO_SMALL && count == 4);
    CHECK(addr2line_status_text(0, NULL, 0, &needed) == ADDR2LINE_TOO_SMALL && needed == 5);
    CHECK(addr2line_status_text(none, NULL, 0, &needed) == ADDR2LINE_TOO_SMALL && needed == 19);
    CHECK(addr2line_status_text(none, text, 19, &needed) == ADDR2LINE_OK && strcmp(text, "a place is missing") == 0);
    CHECK(addr2line_status_text(none, text, 18, &needed) == ADDR2LINE_TOO_SMALL && needed == 19);
    check_frames(&file);
    addr2line_file_close(&file);
}

static void check_errno(const char *pipe)
{
    addr2line_file file = ADDR2LINE_FILE_INIT;
    CHECK(addr2line_file_open("/nowhere", NULL, &file) == ADDR2LINE_CANNOT_READ && addr2line_file_errno(&file) == ENOENT);
    CHECK(addr2line_file_open("/", NULL, &file) == ADDR2LINE_CANNOT_READ && addr2line_file_errno(&file) == EINVAL);
    CHECK(addr2line_file_open(pipe, NULL, &file) == ADDR2LINE_CANNOT_READ && addr2line_file_errno(&file) == EINVAL);
    CHECK(addr2line_file_open("/dev/null", NULL, &file) == ADDR2LINE_CANNOT_READ);
    CHECK(addr2line_file_open_with("/nowhere", NULL, 2, &file) == ADDR2LINE_BAD_FLAGS && addr2line_file_errno(&file) == 0);
}

int main(int argc, char **argv)
{
    CHECK(argc == 4);
    check_ways(argv[1], argv[2]);
    check_bad_flags(argv[1]);
    check_places(argv[1]);
    check_errno(argv[3]);
    return 0;
}
