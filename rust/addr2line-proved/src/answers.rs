//! Answers, the texts in them, and the buffers that calls write them to.
use crate::sys::{self, addr2line_frame, addr2line_location, addr2line_number, addr2line_symbol, addr2line_text};
use crate::{error, Error};
use std::borrow::Cow;
use std::ffi::c_char;
use std::fmt;

/// How many frames, and how many bytes of texts, there is room for at first.
pub(crate) const FIRST_FRAMES: usize = 16;
const FIRST_TEXT: usize = 512;

/// A text as the file has it: bytes that are mostly, but not surely, UTF-8.
#[derive(Clone, PartialEq, Eq, PartialOrd, Ord, Hash)]
pub struct Text<'t>(Cow<'t, [u8]>);

impl Text<'_> {
    /// Its bytes.
    pub fn as_bytes(&self) -> &[u8] {
        &self.0
    }

    /// The same with U+FFFD for each piece that is no UTF-8. It is displayed so too.
    pub fn to_string_lossy(&self) -> Cow<'_, str> {
        String::from_utf8_lossy(&self.0)
    }

    /// The same text, that borrows nothing.
    pub fn into_owned(self) -> Text<'static> {
        Text(Cow::Owned(self.0.into_owned()))
    }
}

impl fmt::Display for Text<'_> {
    fn fmt(&self, f: &mut fmt::Formatter<'_>) -> fmt::Result {
        f.pad(&self.to_string_lossy())
    }
}

impl fmt::Debug for Text<'_> {
    fn fmt(&self, f: &mut fmt::Formatter<'_>) -> fmt::Result {
        fmt::Debug::fmt(&self.to_string_lossy(), f)
    }
}

/// Where in a source file.
#[derive(Clone, Debug, PartialEq, Eq)]
pub struct Location<'t> {
    /// The path of the file.
    pub file: Option<Text<'t>>,
    /// Counted from 1.
    pub line: Option<u32>,
    /// Counted from 1; 0 is the left edge.
    pub column: Option<u32>,
}

impl<'t> Location<'t> {
    pub(crate) fn new(text: &'t [u8], part: &addr2line_location) -> Self {
        Location { file: text_of(text, &part.file), line: number_of(&part.line), column: number_of(&part.column) }
    }

    /// The same location, that borrows nothing.
    pub fn into_owned(self) -> Location<'static> {
        Location { file: self.file.map(Text::into_owned), line: self.line, column: self.column }
    }
}

/// A function at an address with its location there, or a location without a function.
#[derive(Clone, Debug, PartialEq, Eq)]
pub struct Frame<'t> {
    /// The function's name.
    pub function: Option<Text<'t>>,
    /// That of the address, or that of the call of the frame before.
    pub location: Location<'t>,
    /// The offset of the function's entry, from the start of its unit.
    pub entry: Option<u64>,
}

/// The frames at an address, with their texts.
#[derive(Clone, Debug)]
pub struct Frames {
    pub(crate) text: Vec<u8>,
    pub(crate) frames: Vec<addr2line_frame>,
}

impl Frames {
    /// How many there are, 0 where nothing is known of the address.
    pub fn len(&self) -> usize {
        self.frames.len()
    }

    /// Whether there are none.
    pub fn is_empty(&self) -> bool {
        self.frames.is_empty()
    }

    /// Each of them, the innermost inlined function first.
    pub fn iter(&self) -> impl DoubleEndedIterator<Item = Frame<'_>> + ExactSizeIterator {
        self.frames.iter().map(|part| Frame {
            function: text_of(&self.text, &part.function),
            location: Location::new(&self.text, &part.location),
            entry: (part.entry.is_there != 0).then_some(part.entry.value),
        })
    }
}

/// A symbol: of a function, an object or of no type.
#[derive(Clone, Debug, PartialEq, Eq)]
pub struct Symbol {
    /// Where it begins.
    pub address: u64,
    /// Its name. The library finds no symbol whose name isn't UTF-8.
    pub name: String,
}

impl Symbol {
    pub(crate) fn new(text: &[u8], part: &addr2line_symbol) -> Self {
        let name = text_of(text, &part.name).map(|name| name.to_string());
        Symbol { address: part.address, name: name.unwrap_or_default() }
    }
}

fn text_of<'t>(text: &'t [u8], part: &addr2line_text) -> Option<Text<'t>> {
    let bytes = text.get(part.offset..)?.get(..part.length)?;
    (part.is_there != 0).then_some(Text(Cow::Borrowed(bytes)))
}

fn number_of(part: &addr2line_number) -> Option<u32> {
    (part.is_there != 0).then_some(part.value)
}

/// What a call writes with its texts, or `None` where it finds nothing: it is made again with more room where it asks for that.
pub(crate) fn parts<P: Default>(
    mut call: impl FnMut(&mut P, *mut c_char, usize, &mut usize) -> Result<sys::addr2line_status, Error>,
) -> Result<Option<(P, Vec<u8>)>, Error> {
    let (mut part, mut text, mut needed) = (P::default(), Vec::<u8>::new(), FIRST_TEXT);
    loop {
        grow(&mut text, needed)?;
        let status = call(&mut part, text.as_mut_ptr().cast(), text.len(), &mut needed)?;
        if status != sys::ADDR2LINE_TOO_SMALL {
            return Ok(error::found(status)?.then_some((part, text)));
        }
    }
}

/// Gives a buffer a length. A hostile file may ask for much, and where that isn't there the program goes on.
pub(crate) fn grow<T: Clone + Default>(buffer: &mut Vec<T>, length: usize) -> Result<(), Error> {
    let more = length.saturating_sub(buffer.len());
    buffer.try_reserve_exact(more).map_err(|_| Error(sys::ADDR2LINE_OUT_OF_MEMORY))?;
    buffer.resize(buffer.len() + more, T::default());
    Ok(())
}
