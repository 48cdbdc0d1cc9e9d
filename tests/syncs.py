#!/usr/bin/env python3
"""Reads the system calls of `filehost pipe`, and fails where something is answered before it is synced.

No contract can refuse an adapter of the disk whose sync does nothing. This looks from the outside: under `strace` a
stream of folders and files is sent, and of what the program calls it is asked that

- the folder of the store is synced before anything is answered;
- no file has a write that isn't synced where a reply is written, or where a gate is (a write of one byte to a slot);
- no record is written to a slot before its data is synced in the block file.

Needs the program, as `rt ci` leaves it, and `strace`. Outside the gate.

Usage: tests/syncs.py [COMMANDS]       (default: 100)
"""
import pathlib
import re
import subprocess
import sys
import tempfile

ROOT = pathlib.Path(__file__).resolve().parent.parent
PROGRAM = ROOT / "crates" / "filehost" / "out" / "filehost"
TOKEN = "rootroot"
SIZES = [None, 0, 5, 4096, 100_000]  # what the commands make in turn; None is a folder
SLOTS = ("slot_a", "slot_b")
CALL = re.compile(r"(\w+)\((\d+)<([^>]*)>(?:, .*, (\d+), \d+)?.*\) += (-?\d+)")


def request(number):
    """The request of this number: a folder, or a file with its content."""
    size = SIZES[number % len(SIZES)]
    lines = ["Authorization: Bearer %s" % TOKEN]
    if size is None:
        route, body = "create_folder_v2", b'{"path":"/%d"}' % number
    else:
        route, body = "upload", b"%d" % (number % 10) * size
        lines += ['Dropbox-API-Arg: {"path":"/%d"}' % number]
    lines = ["POST /2/files/%s HTTP/1.1" % route, *lines, "Content-Length: %d" % len(body)]
    return "\r\n".join(lines).encode() + b"\r\n\r\n" + body


def traced(store, log, commands):
    """Runs the program over the store with so many commands, and writes its calls to the log."""
    trace = ["strace", "-f", "-y", "-s", "0", "-e", "trace=pwrite64,fdatasync,fsync,write", "-o", log]
    words = [PROGRAM, "pipe", "--store", store, "--admin", TOKEN]
    sent = b"".join(request(number) for number in range(commands))
    told = subprocess.run([*trace, *words], input=sent, capture_output=True).stdout
    if told.count(b"HTTP/1.1 200 OK\r\n") != commands:
        sys.exit("not each command was answered 200")


def calls(log):
    """The calls that succeeded: the name, the number of what it is of, its path, and how many bytes a place was given."""
    for line in log.read_text().splitlines():
        call = CALL.search(line)
        if call and int(call[5]) >= 0:
            yield call[1], int(call[2]), pathlib.Path(call[3]), int(call[4] or 0)


def broken(is_reply, file, size, unsynced):
    """The rule that a call breaks where these files, or the folder, aren't synced, or None. A sync writes no bytes."""
    if is_reply and unsynced:
        return "answered before a sync of %s" % ", ".join(sorted(unsynced))
    if file in SLOTS and size and "blocks" in unsynced:
        return "a record before its data"
    if file in SLOTS and size == 1 and file in unsynced:
        return "a gate before its record"
    return None


def judge(log, store):
    """How many replies and syncs there were. It ends the run at the first call that breaks a rule."""
    unsynced, replies, syncs = {store.name}, 0, 0
    for name, number, path, size in calls(log):
        is_reply = name == "write" and number == 1
        rule = broken(is_reply, path.name, size, unsynced)
        if rule:
            sys.exit("behind %d replies: %s" % (replies, rule))
        replies += is_reply
        if name == "pwrite64":
            unsynced.add(path.name)
        elif name != "write":
            unsynced.discard(path.name)
            syncs += 1
    return replies, syncs


def main():
    commands = int(sys.argv[1]) if len(sys.argv) > 1 else 100
    with tempfile.TemporaryDirectory() as folder:
        store, log = pathlib.Path(folder, "store"), pathlib.Path(folder, "calls")
        store.mkdir()
        traced(store, log, commands)
        replies, syncs = judge(log, store)
    print("%d replies and %d syncs, nothing answered before it was synced" % (replies, syncs))


if __name__ == "__main__":
    main()
