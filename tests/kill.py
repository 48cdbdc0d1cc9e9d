#!/usr/bin/env python3
"""Kills `filehost pipe` in the middle of a stream of requests, again and again, each time over a store of its own.

The requests make folders and upload files of 0, 5, 4,096 and now and then 100,000 bytes, with a content of its own for
each but the empty ones. After each kill the program is started again on the same folder, and all that was answered 200
before must be there: `get_metadata` must show each folder, and `download` must give each file's bytes, with their
content hash. Needs the program, as `rt ci` leaves it. Outside the gate.

Usage: tests/kill.py [ROUNDS]       (default: 100)
"""
import hashlib
import json
import pathlib
import random
import subprocess
import sys
import tempfile
import threading
import time

ROOT = pathlib.Path(__file__).resolve().parent.parent
PROGRAM = ROOT / "crates" / "filehost" / "out" / "filehost"
TOKEN = "rootroot"
NAMES = 2000  # requests of a round
MOST_SECONDS = 0.05  # from the first reply of a round to its kill
SIZES = [None, 0, 5, 4096]  # what the requests make in turn; None is a folder
LARGE = 100_000  # the size of every 25th in their place


def size_of(number):
    """The size of the file that the request of this number uploads, or None where it makes a folder."""
    return LARGE if number % 25 == 24 else SIZES[number % len(SIZES)]


def content_of(number):
    """The content of the file of this number, which tells the number at each place."""
    return (b"%05d " % number * (LARGE // 6 + 1))[: size_of(number)]


def request(route, lines, body=b""):
    """A request with these lines more in its head."""
    lines = [
        "POST /2/files/%s HTTP/1.1" % route,
        "Host: localhost:8080",
        "Authorization: Bearer %s" % TOKEN,
        *lines,
        "Content-Length: %d" % len(body),
    ]
    return "\r\n".join(lines).encode() + b"\r\n\r\n" + body


def argued(route, name):
    """A request whose argument stands in its body."""
    return request(route, ["Content-Type: application/json"], b'{"path":"/%s"}' % name.encode())


def argued_above(route, name, content=b""):
    """A request whose argument stands in its head."""
    lines = ['Dropbox-API-Arg: {"path":"/%s"}' % name, "Content-Type: application/octet-stream"]
    return request(route, lines, content)


def making(number, name):
    """The request that makes what has this number."""
    if size_of(number) is None:
        return argued("create_folder_v2", name)
    return argued_above("upload", name, content_of(number))


def asking(number, name):
    """The request that shows it."""
    return argued("get_metadata", name) if size_of(number) is None else argued_above("download", name)


def start(store):
    words = [PROGRAM, "pipe", "--store", store, "--admin", TOKEN]
    return subprocess.Popen(words, stdin=subprocess.PIPE, stdout=subprocess.PIPE, stderr=subprocess.PIPE)


def field(head, name):
    """The value of a field of a head."""
    return head.split(b"\r\n%s: " % name)[1].split(b"\r\n")[0]


def replies(output):
    """The head and the body of each whole reply at the front of the output."""
    found = []
    place = 0
    while True:
        end = output.find(b"\r\n\r\n", place)
        if end < 0:
            return found
        head = output[place:end]
        length = int(field(head, b"Content-Length"))
        if len(output) < end + 4 + length:
            return found
        place = end + 4 + length
        found.append((head, output[end + 4 : place]))


def is_ok(head):
    return head.startswith(b"HTTP/1.1 200 ")


def is_shown(number, head, body):
    """Whether this reply shows what has this number, a file with its content."""
    if not is_ok(head):
        return False
    if size_of(number) is None:
        return True
    content = content_of(number)
    # No file here has a second block.
    blocks = hashlib.sha256(content).digest() if content else b""
    told = json.loads(field(head, b"Dropbox-API-Result"))
    return body == content and told["size"] == len(content) and told["content_hash"] == hashlib.sha256(blocks).hexdigest()


def feed(program, names):
    """Sends the requests until the program is gone."""
    try:
        for number, name in enumerate(names):
            program.stdin.write(making(number, name))
            program.stdin.flush()
        program.stdin.close()
    except OSError:
        pass


def killed_round(store, names):
    """Runs until a random moment behind its first reply, and answers the numbers that were acknowledged."""
    program = start(store)
    sender = threading.Thread(target=feed, args=(program, names))
    sender.start()
    # A kill before the first reply would find nothing acknowledged, and so would say nothing.
    output = program.stdout.read(1)
    time.sleep(random.uniform(0, MOST_SECONDS))
    program.kill()
    output += program.stdout.read()
    program.wait()
    sender.join()
    return [number for number, (head, _) in enumerate(replies(output)) if is_ok(head)]


def missing(store, names, made):
    """Which of the numbers are not there."""
    program = start(store)
    output, errors = program.communicate(b"".join(asking(number, names[number]) for number in made))
    if program.returncode != 0:
        sys.exit("the store was not opened: status %d, %s" % (program.returncode, errors.decode()))
    found = replies(output)
    if len(found) != len(made):
        sys.exit("%d replies to %d requests" % (len(found), len(made)))
    return [number for number, (head, body) in zip(made, found) if not is_shown(number, head, body)]


def main():
    rounds = int(sys.argv[1]) if len(sys.argv) > 1 else 100
    folders = files = 0
    inside = 0  # kills that left requests unanswered behind acknowledged ones
    for round_number in range(rounds):
        names = ["r%dn%d" % (round_number, number) for number in range(NAMES)]
        with tempfile.TemporaryDirectory() as store:
            made = killed_round(store, names)
            lost = missing(store, names, made)
        if lost:
            told = [(names[number], size_of(number)) for number in lost[:5]]
            sys.exit("round %d lost %d of %d acknowledged folders and files: %s" % (round_number, len(lost), len(made), told))
        new_folders = sum(size_of(number) is None for number in made)
        folders += new_folders
        files += len(made) - new_folders
        inside += 0 < len(made) < NAMES
    told = (rounds, inside, folders, files)
    print("%d kills, %d of them inside the stream, %d folders and %d files acknowledged, none lost" % told)


if __name__ == "__main__":
    main()
