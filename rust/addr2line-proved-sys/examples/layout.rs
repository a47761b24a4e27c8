//! Prints sizes, alignments, offsets and constants, to be compared with those of a C compiler.
use addr2line_proved_sys::*;
use std::mem::{align_of, offset_of, size_of};

macro_rules! print_layouts {
    ($($name:ident { $($field:ident),* })*) => { $(
        println!("{} {} {}", stringify!($name), size_of::<$name>(), align_of::<$name>());
        $(println!("{}.{} {}", stringify!($name), stringify!($field), offset_of!($name, $field));)*
    )* };
}

macro_rules! print_constants {
    ($($name:ident),* $(,)?) => { $(println!("{} {}", stringify!($name), $name);)* };
}

fn main() {
    print_layouts! {
        addr2line_handle { at }
        addr2line { at }
        addr2line_text { offset, length, is_there }
        addr2line_number { value, is_there }
        addr2line_offset { value, is_there }
        addr2line_location { file, line, column }
        addr2line_frame { entry, function, location }
        addr2line_span { address, length, location, status }
        addr2line_symbol { address, name }
        addr2line_load { token, dwo_id, directory, path }
        addr2line_file { handle, mapped, flags, error }
    }
    print_constants! {
        ADDR2LINE_VERSION, ADDR2LINE_OK, ADDR2LINE_TOO_SMALL, ADDR2LINE_WAITS, ADDR2LINE_NOTHING, ADDR2LINE_CLOSED,
        ADDR2LINE_OTHER_UNIT, ADDR2LINE_BAD_FLAGS, ADDR2LINE_NO_PLACE, ADDR2LINE_OUT_OF_MEMORY, ADDR2LINE_CANNOT_READ, ADDR2LINE_NOT_ELF, ADDR2LINE_BAD_ELF,
        ADDR2LINE_COMPRESSED_SECTION, ADDR2LINE_RELOCATIONS_NEEDED, ADDR2LINE_PATH_NOT_UTF8,
        ADDR2LINE_UNEXPECTED_EOF, ADDR2LINE_BAD_LEB128, ADDR2LINE_UNKNOWN_RESERVED_LENGTH,
        ADDR2LINE_UNKNOWN_VERSION, ADDR2LINE_UNKNOWN_UNIT_TYPE, ADDR2LINE_UNSUPPORTED_ADDRESS_SIZE,
        ADDR2LINE_UNSUPPORTED_SEGMENT_SIZE, ADDR2LINE_BAD_ABBREVIATION, ADDR2LINE_UNKNOWN_ABBREVIATION,
        ADDR2LINE_UNKNOWN_FORM, ADDR2LINE_MISSING_UNIT_DIE, ADDR2LINE_OFFSET_OUT_OF_BOUNDS,
        ADDR2LINE_EXPECTED_STRING, ADDR2LINE_NO_SUPPLEMENTARY, ADDR2LINE_NO_ENTRY_AT_GIVEN_OFFSET,
        ADDR2LINE_UNKNOWN_RANGE_LIST_ENTRY, ADDR2LINE_BAD_LINE_HEADER, ADDR2LINE_ADDRESS_OVERFLOW,
        ADDR2LINE_UNKNOWN_TOKEN, ADDR2LINE_DECOMPRESS, ADDR2LINE_FILE_MAP, ADDR2LINE_DEMANGLE,
        ADDR2LINE_DEMANGLE_RUST,
    }
}
