/*
 * From addresses to functions, files and lines, by the DWARF sections of ELF files.
 *
 * The library reads bytes that the caller has, a mapped file say, and copies none of them. It opens no
 * file, prints nothing, and calls nothing of the caller. What it takes of memory comes from malloc,
 * and goes back by free at addr2line_close.
 *
 *   - Any bytes may be given: a damaged file is refused by a status. The bytes of a file and of its split
 *     and supplementary files must stay where they are, unchanged, until the handle is closed.
 *   - A handle is used by one call at a time, and stays on the thread that opened it. Threads may each have
 *     handles of their own, also over the same bytes.
 *   - Each call writes only into what its arguments point to, which must not overlap one another. A pointer
 *     to a buffer, or to bytes, whose length is 0 is not touched, and may be NULL. Where another one is NULL
 *     the call does nothing and gives ADDR2LINE_NO_PLACE; addr2line_close gives nothing.
 *   - Addresses are as the file has them. For an address of a running program, take the address at which
 *     the file is loaded from it first; for one that a call returns to, take 1 too.
 *
 * Texts go into a buffer of the caller, one after another, each with a zero byte after it that its length
 * doesn't count. A part names its text by the offset in that buffer. `needed` is how many bytes the buffer
 * needs for all of them: where it has fewer the status is ADDR2LINE_TOO_SMALL, and the same call with
 * more room gives everything. Until then a part may name what lies past the buffer, and where there are
 * more items than an array has room for, nothing is promised of the array.
 */
#ifndef ADDR2LINE_H
#define ADDR2LINE_H

#include <stddef.h>
#include <stdint.h>

#ifdef __cplusplus
extern "C" {
#endif

/* What addr2line_version gives for this header: it grows with each change of what may be called. */
#define ADDR2LINE_VERSION 3
/* The version of the release, as a text. */
#define ADDR2LINE_RELEASE "0.1.0"

/* What a call comes to. */
typedef uint32_t addr2line_status;

/* What was asked for is written. */
#define ADDR2LINE_OK 0u
/* A buffer is too small; what is needed is written. */
#define ADDR2LINE_TOO_SMALL 1u
/* A split file is waited for: addr2line_get_load tells which, addr2line_answer_load gives it. */
#define ADDR2LINE_WAITS 2u
/* There is nothing that was asked for, or nothing more. */
#define ADDR2LINE_NOTHING 3u
/* The handle is not open; nothing is written, neither counts nor what is needed. */
#define ADDR2LINE_CLOSED 4u
/* The split file that was given is that of another unit, which was answered as if there were none. */
#define ADDR2LINE_OTHER_UNIT 5u
/* A bit of `flags` is none of the call's flags; nothing was done. */
#define ADDR2LINE_BAD_FLAGS 6u
/* A pointer that may not be is NULL; nothing was done. */
#define ADDR2LINE_NO_PLACE 7u

/* Memory was refused. Nothing is lost: the same call may be made again. */
#define ADDR2LINE_OUT_OF_MEMORY 16u

/* Refusals of a file. */
#define ADDR2LINE_CANNOT_READ 17u        /* of addr2line_file.h alone: the file can't be read */
#define ADDR2LINE_NOT_ELF 18u            /* the bytes don't begin as an ELF file does */
#define ADDR2LINE_BAD_ELF 19u            /* a header isn't whole, or bytes stand outside the file */
#define ADDR2LINE_COMPRESSED_SECTION 20u /* a section that is needed is compressed */
#define ADDR2LINE_RELOCATIONS_NEEDED 21u /* a section that is needed isn't linked yet */
#define ADDR2LINE_PATH_NOT_UTF8 22u      /* of addr2line_file.h alone: the path of a split file */

/* Refusals of DWARF bytes; addr2line_status_text says what each means. */
#define ADDR2LINE_UNEXPECTED_EOF 32u
#define ADDR2LINE_BAD_LEB128 33u
#define ADDR2LINE_UNKNOWN_RESERVED_LENGTH 34u
#define ADDR2LINE_UNKNOWN_VERSION 35u
#define ADDR2LINE_UNKNOWN_UNIT_TYPE 36u
#define ADDR2LINE_UNSUPPORTED_ADDRESS_SIZE 37u
#define ADDR2LINE_UNSUPPORTED_SEGMENT_SIZE 38u
#define ADDR2LINE_BAD_ABBREVIATION 39u
#define ADDR2LINE_UNKNOWN_ABBREVIATION 40u
#define ADDR2LINE_UNKNOWN_FORM 41u
#define ADDR2LINE_MISSING_UNIT_DIE 42u
#define ADDR2LINE_OFFSET_OUT_OF_BOUNDS 43u
#define ADDR2LINE_EXPECTED_STRING 44u
#define ADDR2LINE_NO_SUPPLEMENTARY 45u
#define ADDR2LINE_NO_ENTRY_AT_GIVEN_OFFSET 46u
#define ADDR2LINE_UNKNOWN_RANGE_LIST_ENTRY 47u
#define ADDR2LINE_BAD_LINE_HEADER 48u
#define ADDR2LINE_ADDRESS_OVERFLOW 49u
#define ADDR2LINE_UNKNOWN_TOKEN 50u /* no load has this token */

/*
 * An open file: one pointer, which is NULL where it is closed. It must be ADDR2LINE_INIT before its first
 * use, and it may be moved, but not copied: of two copies one call spoils the other.
 *
 * It has two names. C++ has one tag for both, since two would be two types where files are linked with -flto.
 * With addr2line.hpp, which defines ADDR2LINE_IS_NAMESPACE, addr2line is the name of a namespace instead.
 */
#ifdef __cplusplus
typedef struct addr2line_handle {
    void *at;
} addr2line_handle;
#ifndef ADDR2LINE_IS_NAMESPACE
typedef addr2line_handle addr2line;
#endif
#else
typedef struct addr2line {
    void *at;
} addr2line;
typedef addr2line addr2line_handle;
#endif

#define ADDR2LINE_INIT { NULL }

/* A text in the caller's buffer. */
typedef struct addr2line_text {
    size_t offset; /* where it begins, in bytes from the start of the buffer */
    size_t length; /* how many bytes it has; a zero byte follows them */
    uint32_t is_there; /* 1; 0 where there is no such text, and the others are 0 too */
} addr2line_text;

/* A number that may be there. */
typedef struct addr2line_number {
    uint32_t value;
    uint32_t is_there; /* 1; 0 where there is none, and the value is 0 too */
} addr2line_number;

/* An offset that may be there. */
typedef struct addr2line_offset {
    uint64_t value;
    uint32_t is_there; /* 1; 0 where there is none, and the value is 0 too */
} addr2line_offset;

/* A location in a source file. */
typedef struct addr2line_location {
    addr2line_text file;
    addr2line_number line; /* counted from 1 */
    addr2line_number column; /* counted from 1; 0 is the left edge */
} addr2line_location;

/* A function at an address with its location there, or a location without a function. */
typedef struct addr2line_frame {
    addr2line_offset entry; /* of the function's entry, from the start of its unit */
    addr2line_text function;
    addr2line_location location; /* that of the address, or that of the call of the frame before */
} addr2line_frame;

/* A row of line information, or a fault of a unit's lines in the place of its rows. */
typedef struct addr2line_span {
    uint64_t address;
    uint64_t length; /* how many addresses it describes */
    addr2line_location location;
    addr2line_status status; /* ADDR2LINE_OK; of a fault its status, and the others are 0 */
} addr2line_span;

/* A symbol. */
typedef struct addr2line_symbol {
    uint64_t address;
    addr2line_text name;
} addr2line_symbol;

/* A split file that is waited for (DWARF 5, section 7.3.2). */
typedef struct addr2line_load {
    uint64_t token; /* what an answer names it by, as long as the handle is open */
    uint64_t dwo_id; /* the identifier that its unit has */
    addr2line_text directory; /* of the compilation; a path that doesn't begin with '/' stands in it */
    addr2line_text path; /* the name of the file */
} addr2line_load;

/* The text of a part, NULL where it isn't there. */
#define ADDR2LINE_TEXT(buffer, part) \
    ((part).is_there ? (const char *)(buffer) + (part).offset : (const char *)NULL)

/* ADDR2LINE_VERSION of the library. Takes no memory. */
uint32_t addr2line_version(void);

/*
 * What a status says, in lower case. ADDR2LINE_NOTHING for a number that is no status; else
 * ADDR2LINE_OK or ADDR2LINE_TOO_SMALL. Takes no memory.
 */
addr2line_status addr2line_status_text(addr2line_status status, char *text, size_t text_size, size_t *needed);

/*
 * Opens the ELF file that bytes are. `sup` are the bytes of its supplementary file (what dwz -m
 * wrote), none where sup_size is 0. What the handle held is closed first; where the file is refused it
 * stays closed.
 *
 * Refused ADDR2LINE_NOT_ELF, then ADDR2LINE_BAD_ELF, then by the first debug section, in the order
 * of names, that is compressed or not linked, then the same for the supplementary file, then by the first fault of a unit's header or
 * ranges. May be refused ADDR2LINE_OUT_OF_MEMORY instead. Line programs are read by the lookups that
 * need them, once.
 */
addr2line_status addr2line_open(const void *bytes, size_t size, const void *sup, size_t sup_size,
                                addr2line_handle *handle);

/* Sections that are compressed by zlib are decompressed, those of split and supplementary files too. */
#define ADDR2LINE_DECOMPRESS 1u

/*
 * addr2line_open by `flags`: 0, or ADDR2LINE_DECOMPRESS. Decompressed sections take as much memory as
 * their bytes; a damaged stream is refused ADDR2LINE_BAD_ELF, and one that isn't zlib's
 * ADDR2LINE_COMPRESSED_SECTION. ADDR2LINE_BAD_FLAGS closes the handle, as any refusal does.
 */
addr2line_status addr2line_open_with(const void *bytes, size_t size, const void *sup, size_t sup_size,
                                     uint32_t flags, addr2line_handle *handle);

/*
 * Closes a handle: all its memory is given back, and the bytes of its files may go. A closed one stays
 * so.
 */
void addr2line_close(addr2line_handle *handle);

/*
 * The location of an address. ADDR2LINE_NOTHING where the file has none.
 *
 * Refused by the first fault of the lines of a unit that has the address; a fault is the same at each
 * lookup. Takes memory where lines are read that weren't before; may then be refused
 * ADDR2LINE_OUT_OF_MEMORY.
 */
addr2line_status addr2line_find_location(addr2line_handle *handle, uint64_t address,
                                         addr2line_location *location, char *text, size_t text_size,
                                         size_t *needed);

/* Names as they stand in the source, for Rust before its version 0 of mangling; takes memory for a name that
 * is mangled or isn't UTF-8. */
#define ADDR2LINE_DEMANGLE 1u
/* The same, and names of that version too. */
#define ADDR2LINE_DEMANGLE_RUST 2u

/*
 * The frames at an address: the innermost inlined function first, the one that is no inlined call
 * last. `count` is how many there are, 0 where nothing is known; where that is above `capacity`, or
 * the text has no room, the status is ADDR2LINE_TOO_SMALL. `flags` are bits: 0, ADDR2LINE_DEMANGLE,
 * ADDR2LINE_DEMANGLE_RUST, or both, which is the same as the second.
 *
 * ADDR2LINE_WAITS, with 0 frames, where a split file has to be answered first; then make the call
 * again. ADDR2LINE_BAD_FLAGS, with 0 frames too, where another bit is set. Refused by the first fault of
 * a unit that has the address. Takes memory where something is
 * read that wasn't before, where names are demangled, and where more than 16 functions are inlined at
 * the address.
 */
addr2line_status addr2line_find_frames(addr2line_handle *handle, uint64_t address, uint32_t flags,
                                       addr2line_frame *frames, size_t capacity, size_t *count,
                                       char *text, size_t text_size, size_t *needed);

/*
 * The first load, by token, that was asked for and neither answered nor forgotten since;
 * ADDR2LINE_NOTHING where there is none. Takes no memory.
 */
addr2line_status addr2line_get_load(addr2line_handle *handle, addr2line_load *load,
                                    char *text, size_t text_size, size_t *needed);

/*
 * Answers a load by the ELF file that bytes are, and by none where size is 0, which takes no memory:
 * then the unit is looked up without its split file. The first answer of a unit counts: a later one
 * changes nothing, whatever its status. A file that is refused, and one of another unit
 * (ADDR2LINE_OTHER_UNIT), is answered none too, and the status says why. A fault of the unit in the
 * file is told too; lookups have it until the answer is forgotten.
 *
 * Refused ADDR2LINE_UNKNOWN_TOKEN where there is no such load; ADDR2LINE_OUT_OF_MEMORY leaves it
 * waiting.
 */
addr2line_status addr2line_answer_load(addr2line_handle *handle, uint64_t token, const void *bytes, size_t size);

/*
 * Takes the answer to a load back: the next lookup that needs it asks again. Refused
 * ADDR2LINE_UNKNOWN_TOKEN where there is no such load. Takes no memory.
 */
addr2line_status addr2line_forget(addr2line_handle *handle, uint64_t token);

/*
 * Asks for the split files of an address before a lookup does: ADDR2LINE_WAITS where there are some, which
 * addr2line_get_load tells one by one. Takes memory only where a unit at the address waits for its split file.
 */
addr2line_status addr2line_preload(addr2line_handle *handle, uint64_t address);

/*
 * Reads the lines and functions of all units. Where it gives ADDR2LINE_OK, later lookups take no
 * memory, wait for no split file and have no fault, but those of more than 16 inlined functions and
 * those that demangle. Units that wait are answered none; so answer the loads that are wanted before.
 * Loads that were asked for before are still listed: forget one before you answer it.
 *
 * Lines are read up to the first unit whose lines are refused, and functions up to the first whose
 * functions are. The refusal of lines is told first.
 */
addr2line_status addr2line_parse_all(addr2line_handle *handle);

/*
 * The rows of line information that the addresses from `low` up to `high` meet: unit range after unit
 * range, by their ends. They are numbered from 0; `spans` gets those from `first` on, as many as there
 * are or as it has room for. `count` is how many it got: fewer than `capacity` where these are the last
 * ones. A fault stands in the place of a unit's rows. ADDR2LINE_TOO_SMALL where the text has no room.
 *
 * A call walks once over the rows up to the last one that it gives, also over those before `first`: so
 * ask for many at a time. To go on with the same range add `count` to `first`, and double the capacity:
 * then all calls together take time by the number of rows.
 *
 * Takes memory where lines are read that weren't before; may then be refused ADDR2LINE_OUT_OF_MEMORY,
 * and for nothing else.
 */
addr2line_status addr2line_locations(addr2line_handle *handle, uint64_t low, uint64_t high, uint64_t first,
                                     addr2line_span *spans, size_t capacity, size_t *count,
                                     char *text, size_t text_size, size_t *needed);

/*
 * The symbol at or nearest below an address, if its size allows: of a function, an object or of no type,
 * with a name in UTF-8. ADDR2LINE_NOTHING where there is none. Takes no memory.
 */
addr2line_status addr2line_find_symbol(addr2line_handle *handle, uint64_t address, addr2line_symbol *symbol,
                                       char *text, size_t text_size, size_t *needed);

/*
 * The addresses of the first section of a name, up to `end`. ADDR2LINE_NOTHING where there is none, or it
 * ends past 2^64 - 1; nothing is promised of `begin` and `end` then. Takes no memory.
 */
addr2line_status addr2line_section_range(addr2line_handle *handle, const void *name, size_t name_size,
                                         uint64_t *begin, uint64_t *end);

#ifdef __cplusplus
}
#endif

#endif
