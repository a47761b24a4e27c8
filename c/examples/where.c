/* Prints the frames at an address of a file: where FILE ADDRESS */
#include <addr2line_file.h>
#include <stdio.h>
#include <stdlib.h>

int main(int argc, char **argv)
{
    static addr2line_frame frames[32];
    static char text[16384];
    addr2line_file file = ADDR2LINE_FILE_INIT;
    size_t count, needed, i;
    if (argc != 3 || addr2line_file_open(argv[1], NULL, &file) != ADDR2LINE_OK) {
        return 1;
    }
    if (addr2line_file_find_frames(&file, strtoul(argv[2], NULL, 16), 0, frames, 32, &count,
                                   text, sizeof text, &needed) == ADDR2LINE_OK) {
        for (i = 0; i < count; i++) {
            printf("%s %s:%lu\n", frames[i].function.is_there ? text + frames[i].function.offset : "??",
                   frames[i].location.file.is_there ? text + frames[i].location.file.offset : "??",
                   (unsigned long)frames[i].location.line.value);
        }
    }
    addr2line_file_close(&file);
    return 0;
}
