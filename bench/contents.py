#!/usr/bin/env python3
"""How fast files go in and come out of `filehost pipe`, beside plain loops of the same writes, syncs and reads.

usage: bench/contents.py [FOLDER]

Run it once `rt ci` has built crates/filehost/out/filehost and crates/content_hash_bench/out/content_hash_bench, the proved
programs. FOLDER, by default the current one, should lie on the disk in question. It compiles bench/plain.c by gcc -O2. All of
a row is done in one run, in which the program and the loop beside it take turns. The median of each side's turns counts,
since the same syncs may take several times as long a moment later.

The requests come from memory and the replies go to memory, as those of a socket would, so that the disk has nothing to do but
for the store: an output that grows on the same disk would be part of what each sync has to write. What was written before is
synced before each turn, but for the short ones of small files.

Uploads a second: new files of 5 and of 4,096 bytes, on one connection, in turns of 50 requests that come at once. Each reply
is written once its upload is durable, before the next request is looked at, so the syncs are done one after another as if the
client waited for each reply. A turn ends as its last reply is in the pipe; one upload before all turns starts the program,
and doesn't count. Beside it is a plain loop of the same writes of the same sizes: the data behind the end of one file,
fdatasync; the record behind the gate in a second file, fdatasync; the gate, fdatasync. The store extends its files ahead by
zeros, which the loop doesn't, so that most of its syncs have no new length to write. As a commit copies a pointer for each
item of the tree, the rate may fall as the store grows; so there is a row for stores that grow from none to 100 files, and one
to 1,000.

Megabytes a second: files of 4 MiB, on one connection likewise. Beside uploads stands the time of the kit's SHA-256 alone for
as many bytes, by content_hash_bench, and that of a plain loop of write and fdatasync for each file, together. What the
program takes to start and to make the store, or for a store of the files that it is to send, is taken off. An upload that
names its content hash is hashed once as well, and has a row of its own, which counts for nothing. Downloads go to /dev/null,
as what a plain loop reads does.

Wanted are 0.8 for the uploads a second and 0.7 for megabytes; the status is 1 where a row is below that, or where a reply
isn't the one that is wanted.
"""

import array
import fcntl
import hashlib
import os
import statistics
import subprocess
import sys
import tempfile
import termios
import time

TURNS = 15
TOGETHER = 50  # small files of one turn
PIPE_BYTES = 1_048_576  # room for the requests and the replies of such a turn
LOOKS = 0.0002  # seconds between two looks for the last reply
BLOCK = 4_194_304
LARGE = 16  # files of 4 MiB, as many bytes as content_hash_bench hashes
REPEATS = 8  # how often each is sent
WANTED_UPLOADS = 0.8
WANTED_BYTES = 0.7
TOKEN = "rootroot"
HERE = os.path.dirname(os.path.abspath(__file__))
PROGRAM = os.path.join(HERE, "../crates/filehost/out/filehost")
HASHER = os.path.join(HERE, "../crates/content_hash_bench/out/content_hash_bench")


def request(route, argument, content=b""):
    lines = [
        "POST /2/files/%s HTTP/1.1" % route,
        "Host: localhost:8080",
        "Authorization: Bearer %s" % TOKEN,
        "Dropbox-API-Arg: %s" % argument,
        "Content-Type: application/octet-stream",
        "Content-Length: %d" % len(content),
    ]
    return "\r\n".join(lines).encode() + b"\r\n\r\n" + content


def path_of(number):
    return '"path":"/f%06d"' % number


def content_of(number, size):
    return (b"%05d " % number * (size // 6 + 1))[:size]


def hash_of(content):
    return hashlib.sha256(hashlib.sha256(content).digest()).hexdigest()


def upload(number, size, named=False):
    content = content_of(number, size)
    argument = path_of(number) + (',"content_hash":"%s"' % hash_of(content) if named else "")
    return request("upload", "{%s}" % argument, content)


def replies(output):
    """The head and the body of each reply."""
    found, place = [], 0
    while place < len(output):
        end = output.index(b"\r\n\r\n", place)
        head = output[place:end]
        length = int(head.split(b"Content-Length: ")[1].split(b"\r\n")[0])
        place = end + 4 + length
        found.append((head, output[end + 4 : place]))
    return found


def is_told(number, size, head, text):
    """Whether this tells of the file, in a reply that is as it should be."""
    wanted = '"content_hash":"%s"' % hash_of(content_of(number, size))
    return head.startswith(b"HTTP/1.1 200 ") and wanted.encode() in text


def are_uploaded(count, size, output):
    told = replies(output)
    return len(told) == count and all(is_told(number, size, head, body) for number, (head, body) in enumerate(told))


def are_sent(output):
    told = replies(output)
    return len(told) == LARGE and all(
        is_told(number, BLOCK, head, head) and body == content_of(number, BLOCK) for number, (head, body) in enumerate(told)
    )


def in_memory(parts):
    """A file in memory that holds these bytes."""
    file = open(os.memfd_create("bench"), "w+b", buffering=0)
    for part in parts:
        file.write(part)
    return file


def plain_turn(loop):
    """Seconds that the plain loop takes for as many commits as a turn has."""
    loop.stdin.write(b"%d\n" % TOGETHER)
    return float(loop.stdout.readline())


def wait_for(pipe, count):
    """Waits until the pipe holds so many bytes. It looks from time to time: a read would have the program wake this side with
    each of its replies."""
    held = array.array("i", [0])
    while held[0] < count:
        time.sleep(LOOKS)
        fcntl.ioctl(pipe, termios.FIONREAD, held)


class Bench:
    """One folder, in which both sides work."""

    def __init__(self, folder):
        self.folder = folder
        self.plain_program = os.path.join(folder, "plain")
        subprocess.run(["gcc", "-O2", "-o", self.plain_program, os.path.join(HERE, "plain.c")], check=True)
        self.right = True
        self.enough = True

    def new_folder(self):
        """A new folder for one of both sides. Each has its own, as new folders may lie elsewhere on the disk."""
        return tempfile.TemporaryDirectory(dir=self.folder)

    def serve(self, store, source, sink):
        """Seconds that the program takes for an input over a store."""
        words = [PROGRAM, "pipe", "--store", store, "--admin", TOKEN]
        source.seek(0)
        os.sync()
        begun = time.perf_counter()
        subprocess.run(words, stdin=source, stdout=sink, check=True)
        return time.perf_counter() - begun

    def serve_told(self, store, source):
        """The same, and the output."""
        with in_memory([]) as sink:
            passed = self.serve(store, source, sink)
            sink.seek(0)
            return passed, sink.read()

    def serve_anew(self, source):
        """The same over a new store."""
        with self.new_folder() as store:
            return self.serve_told(store, source)

    def plain(self, *words):
        """Seconds that a plain loop takes."""
        os.sync()
        return float(subprocess.run([self.plain_program, *map(str, words)], check=True, capture_output=True, text=True).stdout)

    def writes(self):
        """Seconds that a plain loop takes to write and sync as many bytes as the large files have, in a new folder."""
        with self.new_folder() as folder:
            return self.plain("writes", folder, LARGE, BLOCK)

    def hashed(self):
        """Seconds that the kit's SHA-256 takes for as many bytes as the large files have."""
        begun = time.perf_counter()
        subprocess.run([HASHER, "sha2", "0"], check=True, capture_output=True)
        idle = time.perf_counter() - begun
        begun = time.perf_counter()
        subprocess.run([HASHER, "sha2", "1"], check=True, capture_output=True)
        return time.perf_counter() - begun - idle

    def in_turns(self, ours, beside):
        """The medians of both sides, which take turns."""
        found = {ours: [], beside: []}
        for turn in range(TURNS):
            for side in (ours, beside) if turn % 2 == 0 else (beside, ours):
                found[side].append(side())
        return statistics.median(found[ours]), statistics.median(found[beside])

    def lengths(self, size):
        """How many bytes an upload's record and gate take in the slot, and its reply in the output."""
        found = []
        for count in (1, 2):
            with in_memory(upload(number, size) for number in range(count)) as source:
                with self.new_folder() as store:
                    _, output = self.serve_told(store, source)
                    found.append((os.path.getsize(os.path.join(store, "slot_a")), len(output)))
        return tuple(after - before for before, after in zip(*found))

    def tell(self, what, ours, beside, unit, wanted):
        ratio = ours / beside
        if wanted is not None and ratio < wanted:
            self.enough = False
        note = "counts for nothing" if wanted is None else "wanted %.1f" % wanted
        print("%-44s %7.0f%s, plain %7.0f%s, ratio %.2f (%s)" % (what, ours, unit, beside, unit, ratio, note), flush=True)

    def started(self, store):
        """The program over a store, between two pipes."""
        words = [PROGRAM, "pipe", "--store", store, "--admin", TOKEN]
        program = subprocess.Popen(words, stdin=subprocess.PIPE, stdout=subprocess.PIPE, bufsize=0)
        for end in (program.stdin, program.stdout):
            fcntl.fcntl(end, fcntl.F_SETPIPE_SZ, PIPE_BYTES)
        return program

    def small_turns(self, size, count, lengths):
        """Seconds of each turn of both sides, as one store grows to so many files."""
        record, reply = lengths
        found = []
        with self.new_folder() as store, self.new_folder() as beside:
            program = self.started(store)
            loop_words = [self.plain_program, "commits", beside, str(size), str(record)]
            loop = subprocess.Popen(loop_words, stdin=subprocess.PIPE, stdout=subprocess.PIPE, bufsize=0)
            # The program starts with the first.
            self.small_turn(program, size, [count], reply)
            for first in range(0, count, TOGETHER):
                numbers = range(first, first + TOGETHER)
                found.append((self.small_turn(program, size, numbers, reply), plain_turn(loop)))
            for process in (program, loop):
                process.stdin.close()
                process.wait()
                process.stdout.close()
        return found

    def small_turn(self, program, size, numbers, reply):
        """Seconds for some uploads, which come at once, up to the last reply."""
        batch = b"".join(upload(number, size) for number in numbers)
        begun = time.perf_counter()
        program.stdin.write(batch)
        wait_for(program.stdout, len(numbers) * reply)
        passed = time.perf_counter() - begun
        told = replies(program.stdout.read(PIPE_BYTES))
        right = len(told) == len(numbers) and all(is_told(number, size, *each) for number, each in zip(numbers, told))
        self.right = self.right and right
        return passed

    def small(self, size, count, stores):
        """Uploads a second of small files."""
        lengths = self.lengths(size)
        turns = [turn for _ in range(stores) for turn in self.small_turns(size, count, lengths)]
        passed, loop = (statistics.median(side) for side in zip(*turns))
        what = "uploads of %d bytes, to %d files" % (size, count)
        self.tell(what, TOGETHER / passed, TOGETHER / loop, "/s", WANTED_UPLOADS)

    def uploads(self, count, size, named, beside):
        """The seconds of both sides, for so many uploads into a new store."""
        with in_memory([]) as none, in_memory(upload(number, size, named) for number in range(count)) as every:
            idle = statistics.median(self.serve_anew(none)[0] for _ in range(TURNS))

            def ours():
                passed, output = self.serve_anew(every)
                self.right = self.right and are_uploaded(count, size, output)
                return passed - idle

            return self.in_turns(ours, beside)

    def large_uploads(self, named):
        """Megabytes a second of uploads."""

        def beside():
            return self.hashed() + self.writes()

        passed, loop = self.uploads(LARGE, BLOCK, named, beside)
        megabytes = LARGE * BLOCK / 1e6
        what = "uploads of 4 MiB" + (" that name their hash" if named else "")
        self.tell(what, megabytes / passed, megabytes / loop, " MB/s", None if named else WANTED_BYTES)

    def large_downloads(self):
        """Megabytes a second of downloads, over one store."""
        count = LARGE * REPEATS
        asked = [request("download", "{%s}" % path_of(number)) for number in range(LARGE)]
        with self.new_folder() as store:
            with in_memory(upload(number, BLOCK) for number in range(LARGE)) as every:
                self.serve_told(store, every)
            with in_memory(asked) as each:
                self.right = self.right and are_sent(self.serve_told(store, each)[1])
            passed, loop = self.downloads(store, asked)
        megabytes = count * BLOCK / 1e6
        self.tell("downloads of 4 MiB", megabytes / passed, megabytes / loop, " MB/s", WANTED_BYTES)

    def downloads(self, store, asked):
        """The seconds of both sides, for these requests again and again."""
        with open(os.devnull, "wb") as sink, in_memory([]) as none, in_memory(REPEATS * asked) as every:
            idle = statistics.median(self.serve(store, none, sink) for _ in range(TURNS))

            def ours():
                return self.serve(store, every, sink) - idle

            def beside():
                return self.plain("reads", os.path.join(store, "blocks"), LARGE * REPEATS, BLOCK)

            return self.in_turns(ours, beside)


def main():
    base = sys.argv[1] if len(sys.argv) > 1 else "."
    with tempfile.TemporaryDirectory(dir=base) as folder:
        bench = Bench(folder)
        print("load %.1f" % os.getloadavg()[0])
        for count, stores in ((100, 40), (1000, 8)):
            for size in (5, 4096):
                bench.small(size, count, stores)
        bench.large_uploads(named=False)
        bench.large_uploads(named=True)
        bench.large_downloads()
    if not bench.right:
        print("a reply isn't the one that is wanted", file=sys.stderr)
    return 0 if bench.right and bench.enough else 1


if __name__ == "__main__":
    sys.exit(main())
