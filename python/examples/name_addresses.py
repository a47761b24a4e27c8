#!/usr/bin/env python3
"""Names many addresses of one file by Dask's workers, in the order in which they came.

    name_addresses.py [--scheduler ADDRESS] [--workers N] FILE < ADDRESSES

Prints what `addr2line -a -f -i -e FILE < ADDRESSES` prints. Without a scheduler's address it starts
workers of its own on this machine (4, if not told). A worker is a process with one thread, since a
file stays on the thread that opened it, and opens the file once: FILE is its path on each worker's
machine. Only so many lines are on their way as keep the workers busy, so addresses without end take
no more memory.

Needs Dask's `distributed` (Debian's python3-distributed), and on each machine the module addr2line
with its library.
"""
import argparse
import collections
import itertools
import os
import re
import sys

import distributed

LINES = 20_000
AHEAD = 3


def file_of_worker(path):
    """The file of this worker, opened when it's first asked for."""
    import addr2line

    worker = distributed.get_worker()
    if not hasattr(worker, "addr2line_files"):
        worker.addr2line_files = {}
    if path not in worker.addr2line_files:
        worker.addr2line_files[path] = addr2line.open_file(path)
    return worker.addr2line_files[path]


def address_of(line):
    """The address that a line spells, None where it spells none."""
    digits = re.fullmatch(r"(?:0x)?\+?([0-9a-fA-F]+)", line.rstrip("\r\n"))
    address = int(digits.group(1), 16) if digits else None
    return address if address is not None and address < 2**64 else None


def location_text(frame):
    if frame.file is None and frame.line is None:
        return "??:0"
    return "%s:%s" % (
        "??" if frame.file is None else frame.file,
        "?" if frame.line is None else frame.line,
    )


def answer(file, line):
    address = address_of(line)
    if address is None:
        return "0x%016x\n??\n??:0\n" % 0
    frames, symbol = file.frames(address), file.symbol(address)
    # The last function is no inlined call: the linker knows it by its symbol.
    functions = [frame.function for frame in frames[:-1]]
    functions.append(symbol.name if symbol else frames[-1].function if frames else None)
    locations = [location_text(frame) for frame in frames] or ["??:0"]
    texts = (
        "%s\n%s\n" % ("??" if name is None else name, at) for name, at in zip(functions, locations)
    )
    return "0x%016x\n%s" % (address, "".join(texts))


def answers(path, lines):
    file = file_of_worker(path)
    return "".join(answer(file, line) for line in lines).encode()


def main():
    words = argparse.ArgumentParser()
    words.add_argument("--scheduler")
    words.add_argument("--workers", type=int, default=4)
    words.add_argument("file")
    given = words.parse_args()
    if given.scheduler:
        client = distributed.Client(given.scheduler)
    else:
        client = distributed.Client(
            n_workers=given.workers, threads_per_worker=1, processes=True, dashboard_address=None
        )
    path = os.path.abspath(given.file)
    with client:
        most = AHEAD * max(1, len(client.scheduler_info()["workers"]))
        waiting = collections.deque()
        while True:
            lines = list(itertools.islice(sys.stdin, LINES))
            if lines:
                # The same lines may come twice; each part is asked for by itself.
                waiting.append(client.submit(answers, path, lines, pure=False))
            while waiting and (not lines or len(waiting) >= most):
                sys.stdout.buffer.write(waiting.popleft().result())
            if not lines:
                break
    sys.stdout.flush()


if __name__ == "__main__":
    main()
