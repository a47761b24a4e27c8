/* Looks frames up by the library of this repository: here FILE map|read [answers] */
#include <addr2line_file.h>

#include "answers.h"

#define FRAMES 1024
#define TEXT (1 << 20)

static const char *text_of(addr2line_status status)
{
    static char text[80];
    size_t needed;
    return addr2line_status_text(status, text, sizeof text, &needed) == ADDR2LINE_OK ? text : "unknown status";
}

static void look_up(addr2line_file *file, uint64_t address)
{
    static addr2line_frame found[FRAMES];
    static char text[TEXT];
    size_t count, needed, i;
    addr2line_status status =
        addr2line_file_find_frames(file, address, 0, found, FRAMES, &count, text, sizeof text, &needed);
    if (status != ADDR2LINE_OK) {
        add_refusal(address, text_of(status));
        return;
    }
    for (i = 0; i < count; i++) {
        add_frame(ADDR2LINE_TEXT(text, found[i].function), ADDR2LINE_TEXT(text, found[i].location.file),
                  found[i].location.line.value);
    }
}

int main(int argc, char **argv)
{
    addr2line_file file = ADDR2LINE_FILE_INIT;
    addr2line_status status;
    uint64_t address;
    if (argc < 3) {
        return 2;
    }
    begin_answers(argc, argv);
    status = addr2line_file_open_with(argv[1], NULL, strcmp(argv[2], "map") == 0 ? ADDR2LINE_FILE_MAP : 0, &file);
    if (status != ADDR2LINE_OK) {
        fprintf(stderr, "%s: %s\n", argv[1], text_of(status));
        return 1;
    }
    while (next_address(&address)) {
        look_up(&file, address);
        end_address();
    }
    addr2line_file_close(&file);
    end_answers();
    return 0;
}
