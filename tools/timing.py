"""What the tools share that time programs: one run, its instructions, figures in words, and what is asked for."""
import importlib.machinery
import importlib.util
import os
import re
import resource
import subprocess

# How many addresses are asked for, and what chooses them.
COUNTS = (1, 10_000, 100_000)
SEED = 20


def sections(path):
    """The address and size of .text, and the bytes of debug information."""
    text, total = None, 0
    listed = subprocess.run(["readelf", "-SW", path], check=True, capture_output=True, text=True).stdout
    for line in listed.splitlines():
        found = re.match(r"\s*\[\s*\d+\] (\S+)\s+\S+\s+([0-9a-f]+) [0-9a-f]+ ([0-9a-f]+)", line)
        if found and found.group(1) == ".text":
            text = (int(found.group(2), 16), int(found.group(3), 16))
        if found and found.group(1).startswith(".debug_"):
            total += int(found.group(3), 16)
    return text, total


def timed(words, given, output, limit=None):
    """The status, the seconds of user and system time, and the peak of memory in MB, of one run.

    Past `limit` seconds of that time a signal ends it. Of a signal the status is below 0.
    """
    child = os.fork()
    if child == 0:
        if limit is not None:
            resource.setrlimit(resource.RLIMIT_CPU, (limit, limit + 1))
            resource.setrlimit(resource.RLIMIT_CORE, (0, 0))
        os.dup2(given, 0)
        os.dup2(output, 1)
        os.execvp(words[0], words)
    _, status, used = os.wait4(child, 0)
    status = os.WEXITSTATUS(status) if os.WIFEXITED(status) else -os.WTERMSIG(status)
    return status, used.ru_utime + used.ru_stime, used.ru_maxrss / 1024


def instructions(words, given):
    """The millions of instructions of one run, as callgrind counts them."""
    words = ["valgrind", "--tool=callgrind", "--callgrind-out-file=/dev/null", *words]
    told = subprocess.run(words, stdin=given, stdout=subprocess.DEVNULL, stderr=subprocess.PIPE, text=True).stderr
    found = re.search(r"Collected : (\d+)", told)
    return int(found.group(1)) / 1e6 if found else None


def cell(figures):
    """What one program took, in words."""
    told = f"{figures['seconds']:.3f} s, {figures['megabytes']:.0f} MB"
    return told + (f", {figures['instructions']:.0f} M" if figures.get("instructions") else "")


def ratio(ours, other):
    """How figures stand to those of another program, of each that both have."""
    names = [name for name in ("seconds", "megabytes", "instructions") if ours.get(name) and other.get(name)]
    return ", ".join(f"{ours[name] / other[name]:.2f}" for name in names)


def machine():
    """The processor's name, and how many there are."""
    with open("/proc/cpuinfo") as lines:
        name = next((line.split(":", 1)[1].strip() for line in lines if line.startswith("model name")), "unknown")
    return f"{name}, {os.cpu_count()} processors"


def tool(name):
    """A tool of this folder as a module."""
    path = os.path.join(os.path.dirname(os.path.abspath(__file__)), name)
    loader = importlib.machinery.SourceFileLoader(name, path)
    module = importlib.util.module_from_spec(importlib.util.spec_from_loader(name, loader))
    loader.exec_module(module)
    return module
