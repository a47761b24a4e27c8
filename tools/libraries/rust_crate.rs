//! Looks frames up by the Rust crate addr2line: rust_crate FILE [answers]
//!
//! What it reads and prints is what answers.h says. `waits` is set for versions whose lookups may wait for a split file.
use addr2line::gimli::{self, EndianSlice, RunTimeEndian};
use object::{Object, ObjectSection};
use std::error::Error;
use std::ffi::c_void;
use std::io::{self, BufRead};
use std::os::unix::io::AsRawFd;

type Slice = EndianSlice<'static, RunTimeEndian>;

extern "C" {
    fn mmap(address: *mut c_void, length: usize, protection: i32, flags: i32, fd: i32, offset: i64) -> *mut c_void;
}

/// The bytes of a file, mapped to be read, private to this process.
fn map_file(path: &str) -> io::Result<&'static [u8]> {
    const PROT_READ: i32 = 1;
    const MAP_PRIVATE: i32 = 2;
    let file = std::fs::File::open(path)?;
    let length = file.metadata()?.len() as usize;
    // SAFETY: a new mapping meets nothing else.
    let bytes = unsafe { mmap(std::ptr::null_mut(), length, PROT_READ, MAP_PRIVATE, file.as_raw_fd(), 0) };
    if bytes as isize == -1 {
        return Err(io::Error::last_os_error());
    }
    // SAFETY: so many bytes are mapped until the process ends, and nothing writes to the file meanwhile.
    Ok(unsafe { std::slice::from_raw_parts(bytes.cast(), length) })
}

fn open_context(path: &str) -> Result<addr2line::Context<Slice>, Box<dyn Error>> {
    let object = object::File::parse(map_file(path)?)?;
    let endian = if object.is_little_endian() { RunTimeEndian::Little } else { RunTimeEndian::Big };
    let section = |id: gimli::SectionId| -> Result<Slice, object::Error> {
        let bytes = object.section_by_name(id.name()).map_or(Ok(&[][..]), |section| section.data())?;
        Ok(EndianSlice::new(bytes, endian))
    };
    Ok(addr2line::Context::from_dwarf(gimli::Dwarf::load(section)?)?)
}

/// What is counted, and the lines that are to be printed, if any are.
#[derive(Default)]
struct Answers {
    functions: u64,
    lines: u64,
    frames: u64,
    bytes: usize,
    is_refused: bool,
    printed: Option<String>,
}

impl Answers {
    fn look_up(&mut self, context: &addr2line::Context<Slice>, address: u64) {
        let mut has_innermost = false;
        let lookup = context.find_frames(address);
        #[cfg(waits)]
        let lookup = lookup.skip_all_loads();
        let ended = lookup.and_then(|mut found| {
            while let Some(frame) = found.next()? {
                let function = frame.function.as_ref().and_then(|name| name.raw_name().ok());
                let (file, line) = frame.location.map_or((None, None), |location| (location.file, location.line));
                if !has_innermost {
                    self.add_innermost(function.as_deref(), file, line);
                }
                has_innermost = true;
                self.frames += 1;
                self.bytes += function.as_ref().map_or(0, |name| name.len()) + file.map_or(0, str::len);
            }
            Ok(())
        });
        if let (Err(fault), false) = (ended, self.is_refused) {
            eprintln!("{address:#x}: {fault}");
            self.is_refused = true;
        }
        if !has_innermost {
            self.add_innermost(None, None, None);
        }
    }

    fn add_innermost(&mut self, function: Option<&str>, file: Option<&str>, line: Option<u32>) {
        let line = line.unwrap_or(0);
        self.functions += u64::from(function.is_some());
        self.lines += u64::from(file.is_some() && line != 0);
        if let Some(printed) = &mut self.printed {
            *printed += &format!("{}\t{}\t{line}\n", function.unwrap_or("?"), file.unwrap_or("?"));
        }
    }
}

fn main() -> Result<(), Box<dyn Error>> {
    let words: Vec<String> = std::env::args().collect();
    let context = open_context(words.get(1).ok_or("usage: rust_crate FILE [answers]")?)?;
    let are_printed = words.last().map_or(false, |word| word == "answers");
    let mut answers = Answers { printed: are_printed.then(String::new), ..Answers::default() };
    for line in io::stdin().lock().lines() {
        let address = u64::from_str_radix(line?.trim().trim_start_matches("0x"), 16)?;
        answers.look_up(&context, address);
    }
    print!("{}", answers.printed.unwrap_or_default());
    println!("{} {} {} {}", answers.functions, answers.lines, answers.frames, answers.bytes);
    Ok(())
}
