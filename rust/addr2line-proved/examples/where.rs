//! Prints the frames at an address of a file: where FILE ADDRESS
use addr2line_proved::{Context, Text};

fn main() -> Result<(), Box<dyn std::error::Error>> {
    let words: Vec<String> = std::env::args().collect();
    let [_, file, address] = &words[..] else { return Err("usage: where FILE ADDRESS".into()) };
    let mut context = Context::open(file)?;
    let shown = |text: Option<Text>| text.map_or("??".to_owned(), |text| text.to_string());
    for frame in context.frames(u64::from_str_radix(address.trim_start_matches("0x"), 16)?)?.iter() {
        let line = frame.location.line.unwrap_or(0);
        println!("{} {}:{line}", shown(frame.function), shown(frame.location.file));
    }
    Ok(())
}
