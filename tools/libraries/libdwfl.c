/*
 * Looks frames up by libdwfl and libdw of elfutils: libdwfl FILE [answers]
 *
 * It goes as elfutils' own addr2line -f -i does. A file that may be loaded anywhere is given an address by libdwfl: what it
 * adds to those of the file is the bias.
 */
#include <dwarf.h>
#include <elfutils/libdw.h>
#include <elfutils/libdwfl.h>

#include "answers.h"

/* The linkage name of a function, else its name; its declaration and its abstract instance may have it. */
static const char *name_of(Dwarf_Die *function)
{
    static const unsigned int attributes[] = { DW_AT_linkage_name, DW_AT_MIPS_linkage_name, DW_AT_name };
    size_t i;
    for (i = 0; i < sizeof attributes / sizeof *attributes; i++) {
        Dwarf_Attribute attribute;
        const char *name = dwarf_formstring(dwarf_attr_integrate(function, attributes[i], &attribute));
        if (name != NULL) {
            return name;
        }
    }
    return NULL;
}

static Dwarf_Word number_of(Dwarf_Die *entry, unsigned int name)
{
    Dwarf_Attribute attribute;
    Dwarf_Word number = 0;
    return dwarf_formudata(dwarf_attr(entry, name, &attribute), &number) == 0 ? number : 0;
}

/* The frames of the functions around an entry; file and line are those of the innermost. */
static void add_frames(Dwarf_Die *unit, Dwarf_Die *entry, const char *file, uint64_t line)
{
    Dwarf_Die *scopes = NULL;
    int count = dwarf_getscopes_die(entry, &scopes);
    int i;
    for (i = 0; i < count; i++) {
        int tag = dwarf_tag(&scopes[i]);
        Dwarf_Files *files;
        if (tag != DW_TAG_subprogram && tag != DW_TAG_inlined_subroutine) {
            continue;
        }
        add_frame(name_of(&scopes[i]), file, line);
        if (tag == DW_TAG_subprogram || dwarf_getsrcfiles(unit, &files, NULL) != 0) {
            break;
        }
        file = dwarf_filesrc(files, number_of(&scopes[i], DW_AT_call_file), NULL, NULL);
        line = number_of(&scopes[i], DW_AT_call_line);
    }
    free(scopes);
}

static void look_up(Dwfl_Module *module, Dwarf_Addr address)
{
    Dwarf_Addr bias;
    Dwarf_Die entry;
    Dwarf_Die *scopes = NULL;
    Dwarf_Die *unit = dwfl_module_addrdie(module, address, &bias);
    Dwfl_Line *row = dwfl_module_getsrc(module, address);
    int line = 0;
    const char *file = row == NULL ? NULL : dwfl_lineinfo(row, NULL, &line, NULL, NULL, NULL);
    /* Past the first inlined one these scopes are those where it is written, and not those that it is inlined into. */
    if (unit != NULL && dwarf_getscopes(unit, address - bias, &scopes) > 0
        && dwarf_offdie(dwfl_module_getdwarf(module, &bias), dwarf_dieoffset(&scopes[0]), &entry) != NULL) {
        add_frames(unit, &entry, file, (uint64_t)line);
    }
    free(scopes);
    if (!has_innermost) {
        add_frame(NULL, file, (uint64_t)line);
    }
}

int main(int argc, char **argv)
{
    static char *debug_path = NULL;
    static const Dwfl_Callbacks callbacks = {
        .find_elf = dwfl_build_id_find_elf,
        .find_debuginfo = dwfl_standard_find_debuginfo,
        .section_address = dwfl_offline_section_address,
        .debuginfo_path = &debug_path,
    };
    Dwfl *dwfl = dwfl_begin(&callbacks);
    Dwfl_Module *module;
    Dwarf_Addr bias;
    uint64_t address;
    if (argc < 2 || dwfl == NULL) {
        return 2;
    }
    begin_answers(argc, argv);
    module = dwfl_report_offline(dwfl, "", argv[1], -1);
    dwfl_report_end(dwfl, NULL, NULL);
    if (module == NULL || dwfl_module_getdwarf(module, &bias) == NULL) {
        fprintf(stderr, "%s: %s\n", argv[1], dwfl_errmsg(-1));
        return 1;
    }
    while (next_address(&address)) {
        look_up(module, address + bias);
        end_address();
    }
    end_answers();
    dwfl_end(dwfl);
    return 0;
}
