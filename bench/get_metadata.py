#!/usr/bin/env python3
"""How many `get_metadata` requests a second the program answers over one connection, on one core, and where the time goes.

usage: bench/get_metadata.py [--profile] [FOLDERS]

Run it once `rt ci` has built crates/filehost/out/filehost, the proved program. It makes so many folders (by default one)
in a store of its own and then sends 100,000 requests for the last of them in one pipelined input, as curl would write
them, from a file and into a file. What counts is the best processor time of the turns, of the program and of the system
for it; what it takes for the folders alone is taken off. The status is 1 where the output isn't the replies that are
wanted, byte for byte.

With --profile it prints where the time goes instead: the functions that took most time by themselves, by perf over all
requests, what memory, zeroing and the system took of it, and the functions that took most instructions with all that
they called, by callgrind over 2,000 requests (the folders are among them). Needs perf and valgrind.
"""

import os
import re
import resource
import subprocess
import sys
import tempfile

REQUESTS = 100_000
PROFILED = 2_000
TURNS = 5
SHOWN = 24  # lines of each table of a profile
KINDS = {
    "memory taken and given back": r"malloc|calloc|free|_int_|realloc|rattle_alloc|rattle_dealloc|grow_amortized|unlink_chunk",
    "zeroing": r"\[\.\] __memset",
    "the system": r"\[k\]|__GI___libc_write|__libc_read",
}
TOKEN = "rootroot"
PROGRAM = os.path.abspath(os.path.join(os.path.dirname(__file__), "../crates/filehost/out/filehost"))


def request(route, name):
    body = b'{"path":"/%s"}' % name.encode()
    lines = [
        "POST /2/files/%s HTTP/1.1" % route,
        "Host: localhost:8080",
        "User-Agent: curl/8.5.0",
        "Accept: */*",
        "Authorization: Bearer %s" % TOKEN,
        "Content-Type: application/json",
        "Content-Length: %d" % len(body),
    ]
    return "\r\n".join(lines).encode() + b"\r\n\r\n" + body


def reply(text):
    body = text.encode()
    return b"HTTP/1.1 200 OK\r\nContent-Type: application/json\r\nContent-Length: %d\r\n\r\n" % len(body) + body


def fields(number, name):
    return '"id":"id:%016x","name":"%s","path_display":"/%s","path_lower":"/%s"' % (number, name, name, name)


def made(folders):
    """The requests that make the folders, and their replies."""
    names = [(number, "folder%d" % number) for number in range(1, folders + 1)]
    asked = b"".join(request("create_folder_v2", name) for _, name in names)
    return asked, b"".join(reply('{"metadata":{%s}}' % fields(number, name)) for number, name in names)


def looked(folders, count):
    """So many requests for the last folder, and their replies."""
    name = "folder%d" % folders
    return count * request("get_metadata", name), count * reply('{".tag":"folder",%s}' % fields(folders, name))


def write(path, content):
    with open(path, "wb") as file:
        file.write(content)


def run(folder, name, before=()):
    """Processor seconds that the program takes for an input over a new store, and its output. `before` stands in front."""
    with tempfile.TemporaryDirectory(dir=folder) as store:
        words = [*before, PROGRAM, "pipe", "--store", store, "--admin", TOKEN]
        with open(os.path.join(folder, name), "rb") as source, open(os.path.join(folder, "output"), "w+b") as sink:
            begun = resource.getrusage(resource.RUSAGE_CHILDREN)
            subprocess.run(words, stdin=source, stdout=sink, check=True)
            ended = resource.getrusage(resource.RUSAGE_CHILDREN)
            sink.seek(0)
            return ended.ru_utime + ended.ru_stime - begun.ru_utime - begun.ru_stime, sink.read()


def measured(folder, folders):
    """Requests a second, and whether each output was as wanted."""
    make, told_make = made(folders)
    look, told_look = looked(folders, REQUESTS)
    write(os.path.join(folder, "few"), make)
    write(os.path.join(folder, "all"), make + look)
    best, idle, right = float("inf"), float("inf"), True
    for _ in range(TURNS):
        passed, told = run(folder, "few", ["taskset", "-c", "0"])
        idle, right = min(idle, passed), right and told == told_make
        passed, told = run(folder, "all", ["taskset", "-c", "0"])
        best, right = min(best, passed), right and told == told_make + told_look
    return REQUESTS / (best - idle), right


def report(words):
    """The lines with a share that a program prints."""
    told = subprocess.run(words, check=True, capture_output=True, text=True).stdout
    return [line.strip() for line in told.splitlines() if re.search(r"\d%", line) and not line.startswith("#")]


def by_time(folder):
    """Prints the functions by their own time, and what kinds of them took together."""
    kept = os.path.join(folder, "perf")
    run(folder, "all", ["perf", "record", "-q", "-F", "20000", "-e", "cpu-clock", "-o", kept])
    lines = report(["perf", "report", "-i", kept, "--stdio", "--sort", "symbol"])
    shares = [(float(line.split("%")[0]), line) for line in lines]
    print("by time, each function by itself")
    for _, line in shares[:SHOWN]:
        print("  " + " ".join(line.split())[:100])
    for kind, names in KINDS.items():
        print("  %5.1f%% %s" % (sum(share for share, line in shares if re.search(names, line)), kind))


def by_instructions(folder):
    """Prints the functions by their instructions, with all that they called."""
    kept = os.path.join(folder, "callgrind")
    # Where the C library fills memory by one repeated instruction, callgrind would count it once a byte.
    plainly = "GLIBC_TUNABLES=" + ":".join("glibc.cpu.x86_rep_%s_threshold=1000000000" % way for way in ("stosb", "movsb"))
    run(folder, "some", ["env", plainly, "valgrind", "--tool=callgrind", "-q", "--callgrind-out-file=" + kept])
    lines = report(["callgrind_annotate", "--inclusive=yes", "--show-percs=yes", "--threshold=100", kept])
    print("by instructions, each function with all that it called")
    for line in [line for line in lines if PROGRAM in line][:SHOWN]:
        share, name = re.search(r"\(\s*([\d.]+)%\)\s+\S*?:(.*) \[", line).groups()
        print("  %5.1f%% %s" % (float(share), name))


def profiled(folder, folders):
    """Prints where the time went."""
    make, look = made(folders)[0], looked(folders, 1)[0]
    write(os.path.join(folder, "all"), make + REQUESTS * look)
    write(os.path.join(folder, "some"), make + PROFILED * look)
    by_time(folder)
    by_instructions(folder)


def main():
    words = [word for word in sys.argv[1:] if word != "--profile"]
    folders = int(words[0]) if words else 1
    with tempfile.TemporaryDirectory() as folder:
        if "--profile" in sys.argv[1:]:
            profiled(folder, folders)
            return 0
        rate, right = measured(folder, folders)
    print(f"load {os.getloadavg()[0]:.1f}, folders {folders}")
    print(f"{rate:.0f} get_metadata requests a second, {1e6 / rate:.2f} microseconds each")
    if not right:
        print("an output isn't the replies that are wanted", file=sys.stderr)
    return 0 if right else 1


if __name__ == "__main__":
    sys.exit(main())
