//! From addresses to functions, files and lines, by the DWARF sections of ELF files.
//!
//! A [`Context`] is an open file, and closes itself. Its answers own their texts, or borrow them from an answer that does, and
//! stay when it is closed. Nothing found is no refusal: there are no frames then, and no location.
//!
//! The lookups are those of the library `addr2line`, whose calls are [`sys`]; this crate is a layer over them, and not proved.
#![cfg(unix)]

pub use addr2line_proved_sys as sys;

mod answers;
mod error;

pub use answers::{Frame, Frames, Location, Symbol, Text};
pub use error::Error;

use std::ffi::CString;
use std::marker::PhantomData;
use std::ops::Range;
use std::os::unix::ffi::OsStrExt;
use std::path::Path;
use std::ptr;

/// Which names of functions stand as in the source, and not as the file has them.
#[derive(Clone, Copy, Debug, PartialEq, Eq)]
#[repr(u32)]
pub enum Demangle {
    /// None.
    No = 0,
    /// Those of Rust before its version 0 of mangling.
    LegacyRust = sys::ADDR2LINE_DEMANGLE,
    /// Those of Rust.
    Rust = sys::ADDR2LINE_DEMANGLE_RUST,
}

/// An open file. It stays on the thread that opened it, as its handle does, and can't be copied:
///
/// ```compile_fail,E0277
/// fn sent<T: Send>() {}
/// sent::<addr2line_proved::Context>();
/// ```
/// ```compile_fail,E0277
/// fn shared<T: Sync>() {}
/// shared::<addr2line_proved::Context>();
/// ```
/// ```compile_fail,E0277
/// fn copied<T: Clone>() {}
/// copied::<addr2line_proved::Context>();
/// ```
#[derive(Debug)]
pub struct Context<'a> {
    // Its pointers are what keeps it on its thread.
    file: sys::addr2line_file,
    opens_files: bool,
    bytes: PhantomData<&'a [u8]>,
}

impl Context<'static> {
    /// The ELF file at a path. It is mapped: as long as it is open no other program may write to it, but a new file may take
    /// its place. Split files are read from the paths that they have.
    ///
    /// Refused `ADDR2LINE_CANNOT_READ` where it can't be mapped.
    pub fn open(path: impl AsRef<Path>) -> Result<Self, Error> {
        Self::open_by(path.as_ref(), None, sys::ADDR2LINE_FILE_MAP)
    }

    /// The same with its supplementary file (what `dwz -m` wrote).
    pub fn open_with_sup(path: impl AsRef<Path>, sup: impl AsRef<Path>) -> Result<Self, Error> {
        Self::open_by(path.as_ref(), Some(sup.as_ref()), sys::ADDR2LINE_FILE_MAP)
    }

    /// The same by flags: `sys::ADDR2LINE_DECOMPRESS`, `sys::ADDR2LINE_FILE_MAP`, both or 0. A file that isn't mapped is read.
    ///
    /// Refused `ADDR2LINE_BAD_FLAGS` where there is another one.
    pub fn open_by(path: &Path, sup: Option<&Path>, flags: u32) -> Result<Self, Error> {
        let (path, sup) = (path_of(path)?, sup.map(path_of).transpose()?);
        let sup_path = sup.as_ref().map_or(ptr::null(), |sup| sup.as_ptr());
        let mut context = Context { file: sys::ADDR2LINE_FILE_INIT, opens_files: true, bytes: PhantomData };
        // SAFETY: both paths end in a zero byte and live until the call is over; a null pointer stands for no second one.
        // That nothing writes to a mapped file is asked of the caller, in words, since nothing here can check it.
        let status = unsafe { sys::addr2line_file_open_with(path.as_ptr(), sup_path, flags, &mut context.file) };
        error::found(status).map(|_| context)
    }
}

impl<'a> Context<'a> {
    /// The ELF file that bytes are, which it borrows:
    ///
    /// ```compile_fail,E0716
    /// let context = addr2line_proved::Context::over(&std::fs::read("file").unwrap());
    /// drop(context);
    /// ```
    ///
    /// It opens no file: frames whose split file is needed are refused `ADDR2LINE_WAITS`, until
    /// [`answer_loads`](Self::answer_loads).
    pub fn over(bytes: &'a [u8]) -> Result<Self, Error> {
        Self::over_with_sup(bytes, &[])
    }

    /// The same with the bytes of its supplementary file, of which there is none where they are empty.
    pub fn over_with_sup(bytes: &'a [u8], sup: &'a [u8]) -> Result<Self, Error> {
        let mut context = Context { file: sys::ADDR2LINE_FILE_INIT, opens_files: false, bytes: PhantomData };
        let handle = &mut context.file.handle;
        // SAFETY: the bytes outlive the context, which borrows them for 'a; they can't be written to as long.
        let status =
            unsafe { sys::addr2line_open(bytes.as_ptr().cast(), bytes.len(), sup.as_ptr().cast(), sup.len(), handle) };
        error::found(status).map(|_| context)
    }

    /// The frames at an address of the file: the innermost inlined function first, the one that is no inlined call last.
    pub fn frames(&mut self, address: u64) -> Result<Frames, Error> {
        self.frames_with(address, Demangle::No)
    }

    /// The same with names as they stand in the source.
    pub fn frames_with(&mut self, address: u64, demangle: Demangle) -> Result<Frames, Error> {
        let (file, opens_files, flags) = (&mut self.file, self.opens_files, demangle as u32);
        let mut count = answers::FIRST_FRAMES;
        let found = answers::parts(|frames: &mut Vec<sys::addr2line_frame>, text, size, needed| {
            answers::grow(frames, count)?;
            let (room, first) = (frames.len(), frames.as_mut_ptr());
            // SAFETY: the file is one that was opened, on this thread; `flags` is one of the three that there are; `first`
            // has room for `room` frames and `text` for `size` bytes, and nothing overlaps.
            Ok(unsafe {
                if opens_files {
                    sys::addr2line_file_find_frames(file, address, flags, first, room, &mut count, text, size, needed)
                } else {
                    let handle = &mut file.handle;
                    sys::addr2line_find_frames(handle, address, flags, first, room, &mut count, text, size, needed)
                }
            })
        })?;
        let (mut frames, text) = found.unwrap_or_default();
        frames.truncate(count);
        Ok(Frames { text, frames })
    }

    /// The location of an address; of inlined functions that of the innermost.
    pub fn location(&mut self, address: u64) -> Result<Option<Location<'static>>, Error> {
        let handle = &mut self.file.handle;
        let found = answers::parts(|part, text, size, needed| {
            // SAFETY: the handle is one that was opened, and `text` has room for `size` bytes.
            Ok(unsafe { sys::addr2line_find_location(handle, address, part, text, size, needed) })
        })?;
        Ok(found.map(|(part, text)| Location::new(&text, &part).into_owned()))
    }

    /// The symbol at or nearest below an address, if its size allows.
    pub fn symbol(&mut self, address: u64) -> Result<Option<Symbol>, Error> {
        let handle = &mut self.file.handle;
        let found = answers::parts(|part, text, size, needed| {
            // SAFETY: as that of `location`.
            Ok(unsafe { sys::addr2line_find_symbol(handle, address, part, text, size, needed) })
        })?;
        Ok(found.map(|(part, text)| Symbol::new(&text, &part)))
    }

    /// The addresses of the first section of a name.
    pub fn section_range(&mut self, name: impl AsRef<[u8]>) -> Result<Option<Range<u64>>, Error> {
        let (handle, name, mut range) = (&mut self.file.handle, name.as_ref(), 0..0);
        // SAFETY: the handle is one that was opened, and the name has that many bytes.
        let status = unsafe {
            sys::addr2line_section_range(handle, name.as_ptr().cast(), name.len(), &mut range.start, &mut range.end)
        };
        Ok(error::found(status)?.then_some(range))
    }

    /// Reads the lines and functions of all units. Later lookups read nothing, and aren't refused but for memory. A unit
    /// whose split file isn't read yet is looked up without it from then on.
    pub fn parse_all(&mut self) -> Result<(), Error> {
        // SAFETY: the handle is one that was opened.
        error::found(unsafe { sys::addr2line_parse_all(&mut self.file.handle) }).map(drop)
    }

    /// Answers each split file that is waited for by the file at its path. That is mapped where the file itself is, and else
    /// read.
    pub fn answer_loads(&mut self) -> Result<(), Error> {
        // SAFETY: the file is one that was opened.
        error::found(unsafe { sys::addr2line_file_answer_loads(&mut self.file) }).map(drop)
    }

    /// The handle, for the calls of [`sys`] that aren't here. It is the context that closes it.
    pub fn handle(&mut self) -> *mut sys::addr2line_handle {
        &mut self.file.handle
    }
}

impl Drop for Context<'_> {
    fn drop(&mut self) {
        // SAFETY: the file was opened, or is none; no answer points into what goes with it.
        unsafe { sys::addr2line_file_close(&mut self.file) }
    }
}

/// A path as C reads it: up to its first zero byte, which would be that of another file.
fn path_of(path: &Path) -> Result<CString, Error> {
    CString::new(path.as_os_str().as_bytes()).map_err(|_| Error(sys::ADDR2LINE_CANNOT_READ))
}
