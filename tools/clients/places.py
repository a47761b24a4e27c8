"""Addresses with their frames, as a client prints them, and the classes by which they differ.

For tools/check_clients. The classes are those of docs/PROGRAM.md, "What differs for clients".
"""
import collections
import os
import re
import subprocess

SPELLING, DISCRIMINATOR, NOT_KNOWN, NAMES = "paths", "discriminators", "not known", "C++ names"
DEBUG_FILE, INLINED, SYMBOL, ALIAS, ALONE, WAITS = (
    "debug files",
    "inlined calls",
    "symbols",
    "aliases",
    "alone",
    "waits",
)
CLASSES = (
    SPELLING,
    DISCRIMINATOR,
    NOT_KNOWN,
    NAMES,
    DEBUG_FILE,
    INLINED,
    SYMBOL,
    ALIAS,
    ALONE,
    WAITS,
)

# An address and its frames, each a function and a location; in_order is False where the client
# doesn't tell which frame called which.
Place = collections.namedtuple("Place", "name module frames in_order", defaults=[True])


def output(words):
    ended = subprocess.run(words, stdout=subprocess.PIPE, stderr=subprocess.DEVNULL)
    return ended.stdout.decode(errors="replace")


def is_known(location):
    return not re.search(r"^[?]|:[?0]$", location)


class Modules:
    """What files have of debug information and symbols, each read once."""

    def __init__(self):
        self.debug, self.names = {}, {}

    def has_debug(self, module):
        """Whether a file has debug sections of its own."""
        if module not in self.debug:
            out = output(["readelf", "-S", "-W", module])
            self.debug[module] = re.search(r"\.z?debug_info", out) is not None
        return self.debug[module]

    def debug_file_of(self, module):
        """The separate debug file of a file, by its build id; None where it isn't installed."""
        identity = re.search(
            r"Build ID: ([0-9a-f]{2})([0-9a-f]+)", output(["readelf", "-n", "-W", module])
        )
        path = "/usr/lib/debug/.build-id/{}/{}.debug".format(*identity.groups()) if identity else ""
        return path if os.path.exists(path) else None

    def are_aliases(self, module, one, other):
        """Whether two names are symbols of one address, in a file or in its debug file."""
        if module not in self.names:
            self.names[module] = collections.defaultdict(set)
            for words in (
                ["nm", module],
                ["nm", "-D", module],
                ["nm", self.debug_file_of(module) or module],
            ):
                for value, name in re.findall(
                    r"^([0-9a-f]+) \S (\S+)$", output(words), re.MULTILINE
                ):
                    self.names[module][name.split("@")[0]].add(value)
        return bool(self.names[module][one] & self.names[module][other])


def spelled(frame):
    """A path without ./ and //, parts that are left again, and ../ at its front."""
    path, _, line = frame[1].rpartition(":")
    return (
        frame[0],
        (re.sub(r"^(\.\./)+", "", os.path.normpath(path)) if path else path) + ":" + line,
    )


def without_discriminator(frame):
    return frame[0], re.sub(r" \(discriminator \d+\)$", "", frame[1])


def unknown(frame):
    """??:0 where no line is known: for ??:?, and for a file that only the symbol table names."""
    return frame[0], "??:0" if re.search(r"^(:0|)$|:[?0]$", frame[1]) else frame[1]


def without_clone(frame):
    """A symbol's name without the mark of a copy that the compiler made of a function."""
    return re.sub(r"(\.(part|constprop|isra|cold|lto_priv)(\.\d+)?)+$", "", frame[0]), frame[1]


class Names:
    """The last part of a C++ name as c++filt writes it, without parameters and templates."""

    def __init__(self):
        self.known = {}

    def __call__(self, frame):
        name = frame[0]
        if name not in self.known:
            text = subprocess.run(
                ["c++filt"], input=name, capture_output=True, text=True
            ).stdout.strip("\n")
            text = re.sub(r"@+[A-Z]\S*$", "", text)
            text = re.sub(r" \[clone [^]]*\]$| const$", "", text)
            short = None
            while short != text:
                short = text
                text = re.sub(r"(?<!operator)<[^<>]*>|\([^()]*\)", "", text)
            operator = re.search(r"\boperator\b.*", text)
            last = operator.group() if operator else text.split(" ")[-1].split("::")[-1]
            self.known[name] = last.strip()
        return self.known[name], frame[1]


STEPS = (
    (SPELLING, spelled),
    (DISCRIMINATOR, without_discriminator),
    (NOT_KNOWN, unknown),
    (SYMBOL, without_clone),
    (NAMES, Names()),
)


def made_alike(frames, names):
    for name, step in STEPS:
        if name in names:
            frames = [step(frame) for frame in frames]
    return frames


def are_alike(here, there, names):
    """Whether frames of two places are the same but for the classes that are named."""
    some, others = made_alike(here.frames, names), made_alike(there.frames, names)
    if not here.in_order:
        some, others = sorted(set(some)), sorted(set(others))
    # A path is from the root, or from the folder in which the compiler ran.
    return len(some) == len(others) and all(
        one[0] == other[0]
        and (one[1] == other[1] or (SPELLING in names and ends_alike(one[1], other[1])))
        for one, other in zip(some, others)
    )


def ends_alike(one, other):
    return one.endswith("/" + other) or other.endswith("/" + one)


def has_symbol_elsewhere(here, there, a, b):
    """Whether inlined calls have the name of the symbol there, which the function itself has here."""
    symbol = here.frames[-1][0] if here.frames else None
    return (
        len(a) == len(b) > 1
        and a[-1] == b[-1]
        and all(one[1] == other[1] or ends_alike(one[1], other[1]) for one, other in zip(a, b))
        and all(
            one[0] == other[0] or frame[0] == symbol
            for one, other, frame in zip(a[:-1], b[:-1], there.frames)
        )
    )


def classes_of(modules, here, there):
    """The classes that two places differ by: none where they are equal, None where none says it."""
    if here.frames == there.frames:
        return []
    needed = [name for name, _ in STEPS]
    if are_alike(here, there, needed):
        for name in list(needed):
            rest = [each for each in needed if each != name]
            if are_alike(here, there, rest):
                needed = rest
        return needed
    a, b = made_alike(here.frames, needed), made_alike(there.frames, needed)
    if (
        here.module.startswith("/")
        and not modules.has_debug(here.module)
        and all(at == "??:0" for _, at in a)
    ):
        return [DEBUG_FILE]
    if has_symbol_elsewhere(here, there, a, b):
        return [SYMBOL]
    if len(a) != len(b):
        if len(b) < len(a) and {at for _, at in b} <= {at for _, at in a}:
            return [INLINED]
    elif all(
        one[1] == other[1] or ends_alike(one[1], other[1]) for one, other in zip(a, b)
    ) and all(
        one[0] == other[0] or modules.are_aliases(here.module, one[0], other[0])
        for one, other in zip(a, b)
    ):
        return [ALIAS]
    return None
