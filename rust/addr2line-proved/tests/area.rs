//! What docs/C_LIBRARY.md shows of area.elf, refusals, and how long answers stay.
use addr2line_proved::{sys, Context, Demangle, Error, Frames};

const AREA: &str = concat!(env!("CARGO_MANIFEST_DIR"), "/../../crates/addr2line_bin/data/area.elf");
const INLINED: u64 = 0x40014b;
const UNKNOWN: u64 = 0x10;
const FOUR_FRAMES: &str = "area /src/area.c:11\nroom /src/area.c:18\nmeasure /src/area.c:24\n_start /src/area.c:29\n";

fn lines(frames: &Frames) -> String {
    let shown = frames.iter().map(|frame| {
        let line = frame.location.line.unwrap_or(0);
        format!("{} {}:{line}\n", frame.function.unwrap(), frame.location.file.unwrap())
    });
    shown.collect()
}

fn bytes_of(path: &str) -> Vec<u8> {
    std::fs::read(path).unwrap()
}

fn refused<T>(answer: Result<T, Error>) -> sys::addr2line_status {
    answer.err().expect("a refusal").status()
}

#[test]
fn frames_are_those_of_the_page() {
    let mut context = Context::open(AREA).unwrap();
    let frames = context.frames(INLINED).unwrap();
    assert_eq!(lines(&frames), FOUR_FRAMES);
    assert_eq!((frames.len(), frames.is_empty()), (4, false));
    assert_eq!(frames.iter().next_back().unwrap().function.unwrap().as_bytes(), b"_start");
    assert!(context.frames(UNKNOWN).unwrap().is_empty());
    context.parse_all().unwrap();
    assert_eq!(lines(&context.frames_with(INLINED, Demangle::Rust).unwrap()), FOUR_FRAMES);
}

#[test]
fn a_location_a_symbol_and_a_section_are_found_or_not() {
    let mut context = Context::open(AREA).unwrap();
    let location = context.location(INLINED).unwrap().unwrap();
    assert_eq!((location.file.unwrap().to_string_lossy().as_ref(), location.line), ("/src/area.c", Some(11)));
    assert_eq!(context.location(UNKNOWN), Ok(None));
    let symbol = context.symbol(INLINED).unwrap().unwrap();
    assert_eq!(symbol.name, "_start");
    assert!(symbol.address <= INLINED);
    assert_eq!(context.symbol(UNKNOWN), Ok(None));
    let section = context.section_range(".text").unwrap().unwrap();
    assert!(section.contains(&INLINED));
    assert_eq!(context.section_range(b".nothing"), Ok(None));
}

#[test]
fn each_way_of_opening_gives_the_same_frames() {
    let area = std::path::Path::new(AREA);
    for flags in
        [0, sys::ADDR2LINE_FILE_MAP, sys::ADDR2LINE_DECOMPRESS, sys::ADDR2LINE_FILE_MAP | sys::ADDR2LINE_DECOMPRESS]
    {
        let mut context = Context::open_by(area, None, flags).unwrap();
        assert_eq!(lines(&context.frames(INLINED).unwrap()), FOUR_FRAMES);
    }
    assert_eq!(refused(Context::open_by(area, None, 2)), sys::ADDR2LINE_BAD_FLAGS);
}

#[test]
fn answers_stay_when_their_context_is_closed() {
    let (frames, location) = {
        let bytes = bytes_of(AREA);
        let mut context = Context::over(&bytes).unwrap();
        (context.frames(INLINED).unwrap(), context.location(INLINED).unwrap().unwrap())
    };
    assert_eq!(lines(&frames), FOUR_FRAMES);
    assert_eq!(frames.iter().next().unwrap().location, location);
    // They may go to another thread.
    let sent = std::thread::spawn(move || lines(&frames)).join().unwrap();
    assert_eq!(sent, FOUR_FRAMES);
}

#[test]
fn contexts_move_and_threads_have_their_own() {
    let bytes = bytes_of(AREA);
    let mut many: Vec<Context> = (0..5).map(|_| Context::over(&bytes).unwrap()).collect();
    many.swap(0, 4);
    drop(many.pop());
    assert!(many.iter_mut().all(|context| lines(&context.frames(INLINED).unwrap()) == FOUR_FRAMES));
    std::thread::scope(|scope| {
        for _ in 0..4 {
            scope.spawn(|| assert_eq!(lines(&Context::over(&bytes).unwrap().frames(INLINED).unwrap()), FOUR_FRAMES));
        }
    });
}

#[test]
fn refusals_have_their_status_and_the_text_of_the_library() {
    let nowhere = Context::open("/nowhere").unwrap_err();
    assert_eq!(
        (nowhere.status(), nowhere.to_string().as_str()),
        (sys::ADDR2LINE_CANNOT_READ, "the file cannot be read")
    );
    assert_eq!(format!("{nowhere:?}"), "Error { status: 17, text: \"the file cannot be read\" }");
    let _: &dyn std::error::Error = &nowhere;
    assert_eq!(refused(Context::open(format!("{AREA}\0"))), sys::ADDR2LINE_CANNOT_READ);
    assert_eq!(refused(Context::open_with_sup(AREA, "/nowhere")), sys::ADDR2LINE_CANNOT_READ);
    assert_eq!(refused(Context::over(&[])), sys::ADDR2LINE_NOT_ELF);
    assert_eq!(refused(Context::over(b"\x7fELF")), sys::ADDR2LINE_BAD_ELF);
    assert_eq!(refused(Context::over_with_sup(&bytes_of(AREA), b"no ELF file")), sys::ADDR2LINE_NOT_ELF);
}

#[test]
fn calls_that_are_not_here_are_made_by_the_handle() {
    let mut context = Context::open(AREA).unwrap();
    // SAFETY: the context is open, and no other call uses it.
    let status = unsafe { sys::addr2line_preload(context.handle(), INLINED) };
    assert_eq!(status, sys::ADDR2LINE_OK);
}

#[test]
#[ignore = "needs a program with many frames at an address, by DEEP_PROGRAM and DEEP_ADDRESS: tools/test_c_library"]
fn buffers_grow() {
    let (path, address) = program("DEEP");
    let frames = Context::open(path).unwrap().frames(address).unwrap();
    assert!(frames.len() > 16 && frames.iter().all(|frame| frame.function.is_some()));
}

#[test]
#[ignore = "needs a program with split files, by SPLIT_PROGRAM and SPLIT_ADDRESS: tools/test_c_library"]
fn split_files_are_read_by_their_paths_or_waited_for() {
    let (path, address) = program("SPLIT");
    let wanted = lines(&Context::open(&path).unwrap().frames(address).unwrap());
    assert!(!wanted.is_empty());
    let bytes = bytes_of(&path);
    let mut context = Context::over(&bytes).unwrap();
    assert_eq!(refused(context.frames(address)), sys::ADDR2LINE_WAITS);
    context.answer_loads().unwrap();
    assert_eq!(lines(&context.frames(address).unwrap()), wanted);
}

fn program(name: &str) -> (String, u64) {
    let told = |what: &str| std::env::var(format!("{name}_{what}")).unwrap();
    (told("PROGRAM"), told("ADDRESS").parse().unwrap())
}
