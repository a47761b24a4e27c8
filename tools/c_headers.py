"""What the headers of the C library declare, in Rust's words: tools/test_c_library compares rust/addr2line-proved-sys with it."""
import re

# What rust/addr2line-proved-sys has for types of the headers.
TYPES = {"void": "c_void", "char": "c_char", "size_t": "usize", "uint32_t": "u32", "uint64_t": "u64", "int": "i32"}


def as_in_rust(declaration):
    """A parameter or a field of C, `const char *path`, as Rust has it: `path: *const c_char`."""
    constant, kind, pointer, name = re.fullmatch(r"(const )?(\w+) (\*?)(\w+)", " ".join(declaration.split())).groups()
    return "%s: %s%s" % (name, ("*const " if constant else "*mut ") if pointer else "", TYPES.get(kind, kind))


def declared_calls(header):
    """The calls of a header, as Rust declares them."""
    for result, name, given in re.findall(r"^(\w+) (addr2line_\w+)\(([^)]*)\);", header, re.MULTILINE):
        given = "" if given == "void" else ", ".join(as_in_rust(one) for one in given.split(","))
        yield "fn %s(%s)%s" % (name, given, "" if result == "void" else " -> " + TYPES.get(result, result))


def layouts_program(header):
    """A program in C that prints what examples/layout.rs prints: of each struct and constant of the headers."""
    lines = []
    for body, name in re.findall(r"^typedef struct \w+ \{\n(.*?)^\} (\w+);", header, re.DOTALL | re.MULTILINE):
        lines.append('printf("%s %%zu %%zu\\n", sizeof(%s), _Alignof(%s));' % (name, name, name))
        for field in re.findall(r"^    [\w ]+[ *](\w+);", body, re.MULTILINE):
            lines.append('printf("%s.%s %%zu\\n", offsetof(%s, %s));' % (name, field, name, field))
    for name in re.findall(r"^#define (ADDR2LINE_\w+) \d+u?\b", header, re.MULTILINE):
        lines.append('printf("%s %%u\\n", (unsigned)%s);' % (name, name))
    return "#include <addr2line_file.h>\n#include <stdio.h>\nint main(void)\n{\n%s\nreturn 0;\n}\n" % "\n".join(lines)
