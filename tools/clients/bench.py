"""The programs that tools/check_clients compares, and how it starts them and their clients."""
import glob
import os
import re
import shlex
import shutil
import signal
import subprocess

from places import Modules

TOP = os.path.dirname(os.path.dirname(os.path.dirname(os.path.abspath(__file__))))
PROGRAMS = os.path.dirname(os.path.abspath(__file__))
HERE, GNU, LLVM, SYMBOLIZER = "here", "GNU", "LLVM", "llvm-symbolizer"


class Skipped(Exception):
    """A client that can't be had here, and why."""


class Waited(Exception):
    """A client that printed nothing in the limit."""


class Failed(Exception):
    """A command that ended with another status than 0, and what it said."""


class Bench:
    """The folder of a run; each program has a folder there, and is its addr2line."""

    def __init__(self, folder, executable, limit):
        self.folder, self.limit = folder, limit
        prefix = self.at("installed")
        self.done([os.path.join(TOP, "tools", "install"), prefix, executable])
        self.program = os.path.join(prefix, "bin", "addr2line")
        starts = {
            HERE: os.path.join(prefix, "libexec", "addr2line", "addr2line"),
            GNU: need("addr2line", "binutils"),
        }
        newest = newest_of("llvm-addr2line")
        if newest:
            starts[LLVM] = newest
        self.starts = starts
        for name, path in starts.items():
            os.makedirs(self.at(name), exist_ok=True)
            self.write(
                os.path.join(name, "addr2line"),
                "#!/bin/sh\n"
                + f'echo "$@" >> {shlex.quote(self.at("asked"))}\nexec {shlex.quote(path)} "$@"\n',
                0o755,
            )
            # A client that looks for the other tools in the same folder finds them.
            for tool in ("nm", "objdump", "c++filt"):
                os.symlink(need(tool, "binutils"), os.path.join(self.at(name), tool))
        self.modules = Modules()

    def at(self, name):
        return os.path.join(self.folder, name)

    def asked_of_llvm(self, place):
        """The frames that LLVM's program has for the address of a place, by its debug file; None without one."""
        modules = self.modules
        file = place.module if modules.has_debug(place.module) else modules.debug_file_of(place.module)
        if not file:
            return None
        words = [self.starts[LLVM], "-f", "-i", "-e", file, place.name]
        lines = subprocess.run(words, capture_output=True, text=True).stdout.splitlines()
        return place._replace(frames=list(zip(lines[::2], lines[1::2])))

    def write(self, name, text, mode=0o644):
        with open(self.at(name), "w") as file:
            file.write(text)
        os.chmod(self.at(name), mode)
        return self.at(name)

    def asked(self):
        """The words by which programs were started since the last call, without files' names."""
        path = self.at("asked")
        if not os.path.exists(path):
            return []
        with open(path) as file:
            lines = file.read().splitlines()
        os.remove(path)
        found = {
            " ".join(
                "FILE" if "/" in word else "ADDR" if re.fullmatch("0x[0-9a-fA-F]+", word) else word
                for word in line.split()
            )
            for line in lines
        }
        return sorted(found)

    def done(self, words, **more):
        """The output of a command that has to end with status 0."""
        status, out, err = self.run(words, **more)
        if status:
            raise Failed(
                f"{shlex.join(words)}: status {status}: " + " | ".join(err.strip().splitlines()[:3])
            )
        return out

    def run(self, words, given="", env=None, limit=None):
        """Status, output and standard error. In the limit, or what was started is ended."""
        # A session of its own: what the command starts can be ended with it, and nothing else.
        child = subprocess.Popen(
            words,
            stdin=subprocess.PIPE,
            stdout=subprocess.PIPE,
            stderr=subprocess.PIPE,
            text=True,
            errors="replace",
            env=dict(os.environ, HOME=self.folder, LC_ALL="C", **(env or {})),
            cwd=self.folder,
            start_new_session=True,
        )
        try:
            out, err = child.communicate(given, timeout=limit or self.limit)
        except subprocess.TimeoutExpired:
            os.killpg(child.pid, signal.SIGKILL)
            child.communicate()
            raise Waited() from None
        return child.returncode, out, err


def need(tool, package):
    found = shutil.which(tool)
    if not found:
        raise Skipped(f"no {tool} ({package})")
    return found


def newest_of(tool):
    """The path of a tool's highest version. LLVM 14's keeps answers back, and perf waits."""
    found = [
        path
        for folder in os.environ["PATH"].split(":")
        for path in glob.glob(os.path.join(folder, tool + "*"))
    ]
    found = [
        path for path in found if re.fullmatch(re.escape(tool) + r"(-\d+)?", os.path.basename(path))
    ]
    return max(
        found, key=lambda path: int((re.findall(r"-(\d+)$", path) or ["0"])[0]), default=None
    )
