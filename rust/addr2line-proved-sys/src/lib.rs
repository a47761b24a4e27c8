//! The declarations of `addr2line.h` and `addr2line_file.h`, by their names there.
//!
//! What a call needs and gives stands in the headers. The macro `ADDR2LINE_TEXT` isn't here: the text of a part is the
//! `length` bytes at `offset` of the caller's buffer. The crate `addr2line-proved` is safe, and stands on this one.
#![allow(non_camel_case_types)]

use std::ffi::{c_char, c_void};
use std::marker::{PhantomData, PhantomPinned};
use std::ptr::null_mut;

/// What `addr2line_version` gives for these declarations.
pub const ADDR2LINE_VERSION: u32 = 3;

/// What a call comes to.
pub type addr2line_status = u32;

/// What was asked for is written.
pub const ADDR2LINE_OK: addr2line_status = 0;
/// A buffer is too small; what is needed is written.
pub const ADDR2LINE_TOO_SMALL: addr2line_status = 1;
/// A split file is waited for.
pub const ADDR2LINE_WAITS: addr2line_status = 2;
/// There is nothing that was asked for, or nothing more.
pub const ADDR2LINE_NOTHING: addr2line_status = 3;
/// The handle is not open; nothing is written.
pub const ADDR2LINE_CLOSED: addr2line_status = 4;
/// The split file that was given is that of another unit.
pub const ADDR2LINE_OTHER_UNIT: addr2line_status = 5;
/// A bit of the flags is none of the call's flags; nothing was done.
pub const ADDR2LINE_BAD_FLAGS: addr2line_status = 6;
/// A pointer that may not be is null; nothing was done.
pub const ADDR2LINE_NO_PLACE: addr2line_status = 7;
/// Memory was refused.
pub const ADDR2LINE_OUT_OF_MEMORY: addr2line_status = 16;
/// The file can't be read; of `addr2line_file.h` alone.
pub const ADDR2LINE_CANNOT_READ: addr2line_status = 17;
/// Not an ELF file.
pub const ADDR2LINE_NOT_ELF: addr2line_status = 18;
/// Malformed ELF file.
pub const ADDR2LINE_BAD_ELF: addr2line_status = 19;
/// Compressed section.
pub const ADDR2LINE_COMPRESSED_SECTION: addr2line_status = 20;
/// Section needs relocations.
pub const ADDR2LINE_RELOCATIONS_NEEDED: addr2line_status = 21;
/// The path of a split file isn't UTF-8; of `addr2line_file.h` alone.
pub const ADDR2LINE_PATH_NOT_UTF8: addr2line_status = 22;
/// Unexpected end of data.
pub const ADDR2LINE_UNEXPECTED_EOF: addr2line_status = 32;
/// Bad LEB128 number.
pub const ADDR2LINE_BAD_LEB128: addr2line_status = 33;
/// Unknown reserved length.
pub const ADDR2LINE_UNKNOWN_RESERVED_LENGTH: addr2line_status = 34;
/// Unknown DWARF version.
pub const ADDR2LINE_UNKNOWN_VERSION: addr2line_status = 35;
/// Unknown unit type.
pub const ADDR2LINE_UNKNOWN_UNIT_TYPE: addr2line_status = 36;
/// Unsupported address size.
pub const ADDR2LINE_UNSUPPORTED_ADDRESS_SIZE: addr2line_status = 37;
/// Unsupported segment size.
pub const ADDR2LINE_UNSUPPORTED_SEGMENT_SIZE: addr2line_status = 38;
/// Bad abbreviation.
pub const ADDR2LINE_BAD_ABBREVIATION: addr2line_status = 39;
/// Unknown abbreviation code.
pub const ADDR2LINE_UNKNOWN_ABBREVIATION: addr2line_status = 40;
/// Unknown attribute form.
pub const ADDR2LINE_UNKNOWN_FORM: addr2line_status = 41;
/// Missing unit entry.
pub const ADDR2LINE_MISSING_UNIT_DIE: addr2line_status = 42;
/// Offset out of bounds.
pub const ADDR2LINE_OFFSET_OUT_OF_BOUNDS: addr2line_status = 43;
/// Expected a string.
pub const ADDR2LINE_EXPECTED_STRING: addr2line_status = 44;
/// No supplementary file.
pub const ADDR2LINE_NO_SUPPLEMENTARY: addr2line_status = 45;
/// No entry at the given offset.
pub const ADDR2LINE_NO_ENTRY_AT_GIVEN_OFFSET: addr2line_status = 46;
/// Unknown range list entry.
pub const ADDR2LINE_UNKNOWN_RANGE_LIST_ENTRY: addr2line_status = 47;
/// Bad line program header.
pub const ADDR2LINE_BAD_LINE_HEADER: addr2line_status = 48;
/// Address overflow.
pub const ADDR2LINE_ADDRESS_OVERFLOW: addr2line_status = 49;
/// Unknown unit token.
pub const ADDR2LINE_UNKNOWN_TOKEN: addr2line_status = 50;

/// Sections that are compressed by zlib are decompressed.
pub const ADDR2LINE_DECOMPRESS: u32 = 1;
/// Files are mapped and not read; of `addr2line_file.h` alone.
pub const ADDR2LINE_FILE_MAP: u32 = 256;

/// Names as they stand in the source, for Rust before its version 0 of mangling.
pub const ADDR2LINE_DEMANGLE: u32 = 1;
/// The same, and names of that version too.
pub const ADDR2LINE_DEMANGLE_RUST: u32 = 2;

/// An open file, or none where the pointer is null. It may be moved; of two copies one call would spoil the other.
#[repr(C)]
#[derive(Debug)]
pub struct addr2line_handle {
    /// Null where it is closed.
    pub at: *mut c_void,
}

/// The other name of C.
pub type addr2line = addr2line_handle;

/// What a handle must be before its first use.
pub const ADDR2LINE_INIT: addr2line_handle = addr2line_handle { at: null_mut() };

/// A text in the caller's buffer.
#[repr(C)]
#[derive(Clone, Copy, Debug, Default, PartialEq, Eq)]
pub struct addr2line_text {
    /// Where it begins, in bytes from the start of the buffer.
    pub offset: usize,
    /// How many bytes it has; a zero byte follows them.
    pub length: usize,
    /// 1; 0 where there is no such text, and the others are 0 too.
    pub is_there: u32,
}

/// A number that may be there.
#[repr(C)]
#[derive(Clone, Copy, Debug, Default, PartialEq, Eq)]
pub struct addr2line_number {
    /// The number.
    pub value: u32,
    /// 1; 0 where there is none, and the value is 0 too.
    pub is_there: u32,
}

/// An offset that may be there.
#[repr(C)]
#[derive(Clone, Copy, Debug, Default, PartialEq, Eq)]
pub struct addr2line_offset {
    /// The offset.
    pub value: u64,
    /// 1; 0 where there is none, and the value is 0 too.
    pub is_there: u32,
}

/// A location in a source file.
#[repr(C)]
#[derive(Clone, Copy, Debug, Default, PartialEq, Eq)]
pub struct addr2line_location {
    /// The path of the file.
    pub file: addr2line_text,
    /// Counted from 1.
    pub line: addr2line_number,
    /// Counted from 1; 0 is the left edge.
    pub column: addr2line_number,
}

/// A function at an address with its location there, or a location without a function.
#[repr(C)]
#[derive(Clone, Copy, Debug, Default, PartialEq, Eq)]
pub struct addr2line_frame {
    /// Of the function's entry, from the start of its unit.
    pub entry: addr2line_offset,
    /// The function's name.
    pub function: addr2line_text,
    /// That of the address, or that of the call of the frame before.
    pub location: addr2line_location,
}

/// A row of line information, or a fault of a unit's lines in the place of its rows.
#[repr(C)]
#[derive(Clone, Copy, Debug, Default, PartialEq, Eq)]
pub struct addr2line_span {
    /// The first address that it describes.
    pub address: u64,
    /// How many addresses it describes.
    pub length: u64,
    /// The location of them all.
    pub location: addr2line_location,
    /// `ADDR2LINE_OK`; of a fault its status, and the others are 0.
    pub status: addr2line_status,
}

/// A symbol.
#[repr(C)]
#[derive(Clone, Copy, Debug, Default, PartialEq, Eq)]
pub struct addr2line_symbol {
    /// Where it begins.
    pub address: u64,
    /// Its name, in UTF-8.
    pub name: addr2line_text,
}

/// A split file that is waited for (DWARF 5, section 7.3.2).
#[repr(C)]
#[derive(Clone, Copy, Debug, Default, PartialEq, Eq)]
pub struct addr2line_load {
    /// What an answer names it by, as long as the handle is open.
    pub token: u64,
    /// The identifier that its unit has.
    pub dwo_id: u64,
    /// Of the compilation; a path that doesn't begin with '/' stands in it.
    pub directory: addr2line_text,
    /// The name of the file.
    pub path: addr2line_text,
}

/// The bytes of a file, of those of an open file.
#[repr(C)]
#[derive(Debug)]
pub struct addr2line_mapped {
    fields: [u8; 0],
    is_foreign: PhantomData<(*mut u8, PhantomPinned)>,
}

/// An open file, with all bytes that it needs.
#[repr(C)]
#[derive(Debug)]
pub struct addr2line_file {
    /// For the calls of `addr2line.h`.
    pub handle: addr2line_handle,
    /// Null where there are none.
    pub mapped: *mut addr2line_mapped,
    /// Those that it was opened by.
    pub flags: u32,
    /// What `addr2line_file_errno` gives.
    pub error: i32,
}

/// What a file must be before its first use.
pub const ADDR2LINE_FILE_INIT: addr2line_file =
    addr2line_file { handle: ADDR2LINE_INIT, mapped: null_mut(), flags: 0, error: 0 };

// missing_docs isn't asked of them: the headers say what each needs and gives.
#[allow(missing_docs)]
extern "C" {
    pub fn addr2line_version() -> u32;
    pub fn addr2line_status_text(
        status: addr2line_status,
        text: *mut c_char,
        text_size: usize,
        needed: *mut usize,
    ) -> addr2line_status;
    pub fn addr2line_open(
        bytes: *const c_void,
        size: usize,
        sup: *const c_void,
        sup_size: usize,
        handle: *mut addr2line_handle,
    ) -> addr2line_status;
    pub fn addr2line_open_with(
        bytes: *const c_void,
        size: usize,
        sup: *const c_void,
        sup_size: usize,
        flags: u32,
        handle: *mut addr2line_handle,
    ) -> addr2line_status;
    pub fn addr2line_close(handle: *mut addr2line_handle);
    pub fn addr2line_find_location(
        handle: *mut addr2line_handle,
        address: u64,
        location: *mut addr2line_location,
        text: *mut c_char,
        text_size: usize,
        needed: *mut usize,
    ) -> addr2line_status;
    pub fn addr2line_find_frames(
        handle: *mut addr2line_handle,
        address: u64,
        flags: u32,
        frames: *mut addr2line_frame,
        capacity: usize,
        count: *mut usize,
        text: *mut c_char,
        text_size: usize,
        needed: *mut usize,
    ) -> addr2line_status;
    pub fn addr2line_get_load(
        handle: *mut addr2line_handle,
        load: *mut addr2line_load,
        text: *mut c_char,
        text_size: usize,
        needed: *mut usize,
    ) -> addr2line_status;
    pub fn addr2line_answer_load(
        handle: *mut addr2line_handle,
        token: u64,
        bytes: *const c_void,
        size: usize,
    ) -> addr2line_status;
    pub fn addr2line_forget(handle: *mut addr2line_handle, token: u64) -> addr2line_status;
    pub fn addr2line_preload(handle: *mut addr2line_handle, address: u64) -> addr2line_status;
    pub fn addr2line_parse_all(handle: *mut addr2line_handle) -> addr2line_status;
    pub fn addr2line_locations(
        handle: *mut addr2line_handle,
        low: u64,
        high: u64,
        first: u64,
        spans: *mut addr2line_span,
        capacity: usize,
        count: *mut usize,
        text: *mut c_char,
        text_size: usize,
        needed: *mut usize,
    ) -> addr2line_status;
    pub fn addr2line_find_symbol(
        handle: *mut addr2line_handle,
        address: u64,
        symbol: *mut addr2line_symbol,
        text: *mut c_char,
        text_size: usize,
        needed: *mut usize,
    ) -> addr2line_status;
    pub fn addr2line_section_range(
        handle: *mut addr2line_handle,
        name: *const c_void,
        name_size: usize,
        begin: *mut u64,
        end: *mut u64,
    ) -> addr2line_status;
    pub fn addr2line_file_open_with(
        path: *const c_char,
        sup_path: *const c_char,
        flags: u32,
        file: *mut addr2line_file,
    ) -> addr2line_status;
    pub fn addr2line_file_open(
        path: *const c_char,
        sup_path: *const c_char,
        file: *mut addr2line_file,
    ) -> addr2line_status;
    pub fn addr2line_file_errno(file: *const addr2line_file) -> i32;
    pub fn addr2line_file_close(file: *mut addr2line_file);
    pub fn addr2line_file_find_frames(
        file: *mut addr2line_file,
        address: u64,
        flags: u32,
        frames: *mut addr2line_frame,
        capacity: usize,
        count: *mut usize,
        text: *mut c_char,
        text_size: usize,
        needed: *mut usize,
    ) -> addr2line_status;
    pub fn addr2line_file_answer_loads(file: *mut addr2line_file) -> addr2line_status;
}

#[cfg(test)]
mod tests {
    use super::*;

    #[test]
    fn the_library_is_that_of_the_headers() {
        // SAFETY: the call has no arguments.
        assert_eq!(unsafe { addr2line_version() }, ADDR2LINE_VERSION);
    }

    #[test]
    fn what_is_not_open_may_be_closed_again() {
        let mut file = ADDR2LINE_FILE_INIT;
        // SAFETY: the file is one that isn't open, and stays where it is.
        unsafe {
            addr2line_file_close(&mut file);
            addr2line_close(&mut file.handle);
        }
        assert!(file.handle.at.is_null() && file.mapped.is_null());
    }
}
