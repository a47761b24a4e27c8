/*
 * Looks frames up by libbacktrace: libbacktrace FILE [answers]
 *
 * It has to be linked statically, and without -pie. libbacktrace takes FILE for the program that runs: where that may be
 * loaded anywhere, it adds the address at which the running one was loaded, which is 0 then. It also reads what a program
 * is dynamically linked with, which would be no part of FILE.
 */
#include <backtrace.h>

#include "answers.h"

static int take_frame(void *data, uintptr_t pc, const char *file, int line, const char *function)
{
    (void)data;
    (void)pc;
    add_frame(function, file, (uint64_t)line);
    return 0;
}

static void take_fault(void *data, const char *what, int number)
{
    (void)number;
    add_refusal(*(const uint64_t *)data, what);
}

int main(int argc, char **argv)
{
    uint64_t address = 0;
    struct backtrace_state *state;
    if (argc < 2) {
        return 2;
    }
    begin_answers(argc, argv);
    state = backtrace_create_state(argv[1], 0, take_fault, &address);
    if (state == NULL) {
        return 1;
    }
    while (next_address(&address)) {
        backtrace_pcinfo(state, (uintptr_t)address, take_frame, take_fault, &address);
        end_address();
    }
    end_answers();
    return is_refused && functions == 0 && lines == 0;
}
