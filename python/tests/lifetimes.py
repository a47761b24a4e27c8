"""Tests how long files, answers and walks of the module addr2line live: lifetimes.py AREA COMPRESSED

AREA is crates/addr2line_bin/data/area.elf, COMPRESSED the same with its debug sections compressed. Ends with an AssertionError where something doesn't hold.
"""
import gc
import sys
import threading
import warnings

import addr2line

ADDRESS = 0x40014B
FOUR = [("area", 11), ("room", 18), ("measure", 24), ("_start", 29)]


def is_mapped(path):
    with open("/proc/self/maps") as maps:
        return any(line.rstrip("\n").endswith(path) for line in maps)


def named(frames):
    return [(frame.function, frame.line) for frame in frames]


def refusal_of(call):
    try:
        call()
    except addr2line.Refused as refusal:
        return refusal.status
    return None


def answers_stay(path):
    with addr2line.open_file(path) as file:
        frames, location, symbol = file.frames(ADDRESS), file.location(ADDRESS), file.symbol(ADDRESS)
        assert file.section(".text") is not None and ADDRESS in file.section(".text")
        assert is_mapped(path)
    assert not is_mapped(path)
    assert named(frames) == FOUR and frames[0].file == "/src/area.c"
    assert location == ("/src/area.c", 11, location.column) and symbol.name == "_start"
    assert refusal_of(lambda: file.frames(ADDRESS)) == addr2line.CLOSED
    file.close()


def what_nothing_holds_is_closed(path):
    with warnings.catch_warnings(record=True) as told:
        warnings.simplefilter("always")
        file = addr2line.open_file(path)
        assert is_mapped(path)
        del file
        gc.collect()
    assert not is_mapped(path)
    assert [warning.category for warning in told] == [ResourceWarning] and path in str(told[0].message)


def a_closed_file_is_not_told(path):
    with warnings.catch_warnings(record=True) as told:
        warnings.simplefilter("always")
        file = addr2line.open_file(path)
        file.close()
        del file
        for wrong in ["/nowhere", "/dev/null", __file__]:
            try:
                addr2line.open_file(wrong)
                raise AssertionError(wrong)
            except (OSError, addr2line.Refused):
                pass
        gc.collect()
    assert not told


def another_thread_leaves_it_open(path):
    held = [addr2line.open_file(path)]
    handle = held[0]._handle
    with warnings.catch_warnings(record=True) as told:
        warnings.simplefilter("always")
        thread = threading.Thread(target=held.clear)
        thread.start()
        thread.join()
    assert len(told) == 1 and handle.at


def a_walk_holds_its_file(path):
    low, high = 0x400000, 0x401000
    whole = list(addr2line.open_file(path).locations(low, high))
    assert len(whole) > 2 and all(row.file == "/src/area.c" for row in whole)
    file = addr2line.open_file(path)
    walk = file.locations(low, high)
    first = next(walk)
    del file
    gc.collect()
    assert [first] + list(walk) == whole
    with addr2line.open_file(path) as file:
        walk = file.locations(low, high)
        assert next(walk) == first
    assert refusal_of(lambda: next(walk)) == addr2line.CLOSED
    assert list(walk) == []


def compressed_sections_are_read(path):
    assert refusal_of(lambda: addr2line.open_file(path)) == addr2line.COMPRESSED_SECTION
    with addr2line.open_file(path, decompress=True) as file:
        assert named(file.frames(ADDRESS)) == FOUR


def main():
    path = sys.argv[1]
    compressed_sections_are_read(sys.argv[2])
    answers_stay(path)
    what_nothing_holds_is_closed(path)
    a_closed_file_is_not_told(path)
    another_thread_leaves_it_open(path)
    a_walk_holds_its_file(path)


if __name__ == "__main__":
    main()
