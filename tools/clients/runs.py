"""The clients of tools/check_clients.

Each gives a text that says what it is, a function from a program's name to the places that it
prints over that program, and the names of others to compare with.
"""
import collections
import glob
import os
import re

from bench import GNU, PROGRAMS, SYMBOLIZER, Failed, Skipped, need, newest_of
from places import Place, is_known


def frames_of_report(text):
    """Frames `#N 0xADDR in FUNCTION FILE:LINE` of a sanitizer's report, joined by address."""
    places, last = [], None
    for number, address, rest in re.findall(r"^ *#(\d+) (0x[0-9a-f]+) +(.*)$", text, re.MULTILINE):
        rest = re.sub(r" \(BuildId: [0-9a-f]+\)$", "", rest)
        rest = rest[3:] if rest.startswith("in ") else rest
        # A module in brackets stands where no file is known.
        known = re.fullmatch(r"(.*?) ?\((\S+)\+0x[0-9a-f]+\)", rest)
        function, location = (
            (known.group(1), "??:0")
            if known
            else rest.rsplit(" ", 1)
            if " " in rest
            else ("", rest)
        )
        # llvm-symbolizer tells columns.
        location = re.sub(r"(:\d+):\d+$", r"\1", location)
        if last != (address, int(number) - 1):
            places.append([])
        places[-1].append((function or "??", location))
        last = (address, int(number))
    return places


def places_of_report(modules, text):
    reported = frames_of_report(text)
    if len(reported) != len(modules):
        raise Failed(f"{len(modules)} addresses, and {len(reported)} in the report")
    return [
        Place(f"{module}+{offset}", module, frames)
        for (module, offset), frames in zip(modules, reported)
    ]


def modules_of_report(text):
    return re.findall(r"^ *#\d+ 0x[0-9a-f]+ +\((\S+)\+(0x[0-9a-f]+)\)", text, re.MULTILINE)


def clang_sanitizer(bench):
    compiler = need("clang++", "clang")
    source = os.path.join(PROGRAMS, "shelf.cc")
    status, _, err = bench.run(
        [compiler, "-g", "-gz", "-O1", "-fsanitize=address", source, "-o", "shelf_clang"]
    )
    if status:
        raise Skipped(
            "clang++ -fsanitize=address doesn't link (libclang-rt-14-dev): "
            + err.strip().split("\n")[-1]
        )
    _, _, plain = bench.run([bench.at("shelf_clang")], env={"ASAN_OPTIONS": "symbolize=0"})
    modules = modules_of_report(plain)

    def places(name):
        path = (
            newest_of("llvm-symbolizer")
            if name == SYMBOLIZER
            else os.path.join(bench.at(name), "addr2line")
        )
        _, _, err = bench.run(
            [bench.at("shelf_clang")], env={"ASAN_OPTIONS": f"external_symbolizer_path={path}"}
        )
        return places_of_report(modules, err)

    more = [SYMBOLIZER] if newest_of("llvm-symbolizer") else []
    return f"clang's AddressSanitizer ({version_of(bench, compiler)})", places, more


def gcc_sanitizer(bench):
    compiler = need("g++", "g++")
    source = os.path.join(PROGRAMS, "shelf.cc")
    status, _, err = bench.run(
        [compiler, "-g", "-gz", "-O1", "-fsanitize=address", source, "-o", "shelf_gcc"]
    )
    if status:
        raise Skipped(
            "g++ -fsanitize=address doesn't link (libasan): " + err.strip().split("\n")[-1]
        )
    path = os.path.join(bench.at(GNU), "addr2line")
    bench.asked()
    _, _, named = bench.run(
        [bench.at("shelf_gcc")], env={"ASAN_OPTIONS": f"external_symbolizer_path={path}"}
    )
    started = bench.asked()
    count = sum(map(len, frames_of_report(named)))
    print(
        "gcc's AddressSanitizer starts",
        "addr2line " + " | ".join(started)
        if started
        else f"no program: it named {count} frames by the libbacktrace inside it",
    )
    _, _, plain = bench.run([bench.at("shelf_gcc")], env={"ASAN_OPTIONS": "symbolize=0"})
    modules = modules_of_report(plain)

    def places(name):
        if name == "gcc's own":
            return places_of_report(modules, named)
        found = []
        for module, offset in modules:
            out = bench.done(
                [os.path.join(bench.at(name), "addr2line"), "-f", "-i", "-C", "-e", module, offset]
            )
            found.append(Place(f"{module}+{offset}", module, pairs(out.splitlines())))
        return found

    return (
        f"gcc's AddressSanitizer with symbolize=0 ({version_of(bench, compiler)})",
        places,
        ["gcc's own"],
    )


def pairs(lines):
    return list(zip(lines[::2], lines[1::2]))


def boost(bench):
    compiler = need("g++", "g++")
    if not os.path.exists("/usr/include/boost/stacktrace.hpp"):
        raise Skipped("no boost/stacktrace.hpp (libboost-stacktrace-dev)")
    source = os.path.join(PROGRAMS, "stack.cc")

    def places(name):
        # Version 1.74 hands addresses of the process over as they are: this program isn't moved.
        built = bench.at("stack_" + name)
        bench.done(
            [
                compiler,
                "-g",
                "-gz",
                "-O1",
                "-no-pie",
                f"-DBOOST_STACKTRACE_ADDR2LINE_LOCATION={bench.at(name)}/addr2line",
                source,
                "-o",
                built,
                "-ldl",
            ]
        )
        found, lost = [], 0
        for number, line in enumerate(bench.done([built]).splitlines()):
            function, location, whole = line.split("\t")
            lost += location.startswith("/") and location.endswith(":0")
            at = re.sub(r"^(.*) at (.*)$", r"\2", whole) if " at " in whole else "??:0"
            # Addresses outside the program are other ones in each run.
            module = re.sub(r".* in ", "", whole) if " in " in whole else built
            found.append(Place(f"frame {number}", module, [(function or "??", at)]))
        print(
            f"  {name}: of {len(found)} frames {lost} with source_file() have the source_line() 0"
        )
        return found

    header = open("/usr/include/boost/version.hpp").read()
    return (
        "Boost.Stacktrace "
        + re.search(r'BOOST_LIB_VERSION "(.*)"', header).group(1).replace("_", "."),
        places,
        [],
    )


def profile(bench):
    """A profile of libprofiler, and what lies where in the process."""
    library = next(iter(glob.glob("/usr/lib/*/libprofiler.so.0")), None)
    if not library:
        raise Skipped("no libprofiler.so.0 (libgoogle-perftools-dev)")
    if not os.path.exists(bench.at("profile")):
        build_rounds(bench)
        bench.done(
            [bench.at("rounds"), "200"],
            env={
                "CPUPROFILE": bench.at("profile"),
                "CPUPROFILE_FREQUENCY": "200",
                "LD_PRELOAD": library,
            },
        )
    with open(bench.at("profile"), "rb") as file:
        text = file.read().decode("latin-1")
    ranges = re.findall(r"([0-9a-f]+)-([0-9a-f]+) r\S+ [0-9a-f]+ \S+ \d+ +(/\S+)", text)
    return [(int(low, 16), int(high, 16), path) for low, high, path in ranges]


def build_rounds(bench):
    if not os.path.exists(bench.at("rounds")):
        source = os.path.join(PROGRAMS, "rounds.cc")
        bench.done([need("g++", "g++"), "-g", "-O2", "-gz", source, "-o", "rounds"])


def module_at(ranges, address):
    return next((path for low, high, path in ranges if low <= address < high), "")


def by_address(ranges, text, pattern):
    """Places of lines that tell an address, a function and a location, by their addresses."""
    found = collections.defaultdict(set)
    for address, function, location in re.findall(pattern, text, re.MULTILINE):
        found[int(address, 16)].add((function, location or "??:0"))
    return [
        Place(f"{module_at(ranges, at)} {at:x}", module_at(ranges, at), sorted(found[at]), False)
        for at in sorted(found)
    ]


def gperftools(bench):
    pprof = need("google-pprof", "google-perftools")
    ranges = profile(bench)

    def places(name):
        tools = f"addr2line:{bench.at(name)}/addr2line,{os.path.dirname(need('nm', 'binutils'))}/"
        out = bench.done(
            [
                pprof,
                f"--tools={tools}",
                "--text",
                "--addresses",
                "--nodecount=100000",
                "--nodefraction=0",
                bench.at("rounds"),
                bench.at("profile"),
            ]
        )
        return by_address(ranges, out, r"% +([0-9a-f]{16}) (.*?)(?: \(inline\))? (\S+:\d+)$")

    version = bench.done(["dpkg-query", "-W", "-f", "${Version}", "google-perftools"])
    return f"gperftools' pprof ({version})", places, []


def go_pprof(bench):
    go = need("go", "golang-go")
    if not os.path.exists("/usr/share/gocode/src/github.com/google/pprof/pprof.go"):
        raise Skipped("no sources of github.com/google/pprof (golang-github-google-pprof-dev)")
    built = bench.at("go_pprof")
    bench.done(
        [go, "build", "-o", built, "github.com/google/pprof"],
        env={
            "GO111MODULE": "off",
            "GOPATH": "/usr/share/gocode",
            "GOFLAGS": "",
            "GOPROXY": "off",
            "GOCACHE": bench.at("go_cache"),
        },
        limit=600,
    )
    ranges = profile(bench)

    def places(name):
        # With an llvm-symbolizer in PATH it would take that, so PATH is the program's folder.
        out = bench.done(
            [
                built,
                "-traces",
                "-addresses",
                "-nodefraction=0",
                bench.at("rounds"),
                bench.at("profile"),
            ],
            env={"PATH": bench.at(name), "PPROF_TOOLS": bench.at(name)},
        )
        return by_address(ranges, out, r" ([0-9a-f]{16}) (.*?)(?: (\S+:\S+))?(?: \(inline\))?$")

    version = bench.done(["dpkg-query", "-W", "-f", "${Version}", "golang-github-google-pprof-dev"])
    return f"Go's pprof ({version})", places, []


def go_tool(bench):
    go = need("go", "golang-go")
    profile(bench)
    bench.asked()
    out = bench.done(
        [go, "tool", "pprof", "-text", bench.at("rounds"), bench.at("profile")],
        env={"PATH": bench.at(GNU) + ":" + os.environ["PATH"], "PPROF_TOOLS": bench.at(GNU)},
    )
    started = bench.asked()
    print(
        "go tool pprof starts",
        "addr2line " + " | ".join(started) if started else "no program",
        f"({len(out.splitlines())} lines, {bench.done([go, 'version']).split()[2]})",
    )
    return None


def perf(bench):
    need("perf", "linux-perf")
    build_rounds(bench)
    library = re.search(r"libc\.so\.6 => (\S+)", bench.done(["ldd", bench.at("rounds")])).group(1)
    debug = bench.modules.debug_file_of(library)
    if not debug:
        raise Skipped(f"no debug file of {library} (libc6-dbg)")
    compressed = (
        re.search(
            r"\.debug_info +PROGBITS.* [A-Z]*C[A-Z]* ", bench.done(["readelf", "-S", "-W", debug])
        )
        is not None
    )
    recorded = bench.at("perf.data")
    # By its name alone: started by a path, perf looks in its own folder before PATH.
    status, _, err = bench.run(
        [
            "perf",
            "record",
            "-q",
            "--call-graph",
            "dwarf,8192",
            "-F",
            "499",
            "-o",
            recorded,
            bench.at("rounds"),
            "60",
        ]
    )
    if status or not os.path.exists(recorded):
        raise Skipped("perf may not record here: " + (err.strip().split("\n") or [""])[0])
    # Where the outermost frame is an inlined one perf tells no module: asked for without them.
    plain = bench.done(["perf", "script", "-i", recorded, "--no-inline", "-F", "ip,sym,dso"])
    modules = {
        int(address, 16): module
        for address, module in re.findall(r"^\t +([0-9a-f]+) .* \((/\S+)\)$", plain, re.MULTILINE)
    }

    def places(name):
        out = bench.done(
            ["perf", "script", "-i", recorded, "--full-source-path", "-F", "ip,sym,dso,srcline"],
            env={"PATH": bench.at(name) + ":" + os.environ["PATH"]},
        )
        found, frames, last = {}, [], None
        for address, symbol, location in re.findall(
            r"^\t +([0-9a-f]+) (.*?)(?: \(\S+\))?\n(?:  (\S.*)\n)?", out, re.MULTILINE
        ):
            if address != last:
                frames = []
            last = address
            # Where no line is known perf prints the module's name and the address, or nothing.
            location = location.removesuffix(" (inlined)")
            frames.append(
                (
                    symbol,
                    location
                    if re.search(r":[0-9?]+( \(discriminator \d+\))?$", location)
                    else "??:0",
                )
            )
            if int(address, 16) in modules:
                found[int(address, 16)] = frames
        in_library = [
            found[at] for at in found if os.path.basename(modules[at]) == os.path.basename(library)
        ]
        lines = sum(any(is_known(at) for _, at in frames) for frames in in_library)
        print(
            f"  {name}: of {len(in_library)} places of the C library {lines} with a line"
            + (", from its compressed debug file" if compressed else "")
        )
        return [Place(f"{at:x}", modules[at], found[at]) for at in sorted(found)]

    return (
        f"perf ({bench.done(['perf', '--version']).strip().removeprefix('perf version ')})",
        places,
        [],
    )


def version_of(bench, compiler):
    return (re.findall(r"\d+\.\d+\.\d+", bench.done([compiler, "--version"])) or ["?"])[0]
