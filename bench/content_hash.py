#!/usr/bin/env python3
"""How fast the content hash is taken, beside SHA-256 alone and OpenSSL's, each on one core.

usage: bench/content_hash.py

Run it once `rt ci` has built crates/content_hash_bench/out/content_hash_bench, the proved program. It hashes 64 MiB,
in pieces of 64 KiB, by the hasher of contents and by the kit's SHA-256 alone, in turn, and `openssl speed sha256`
takes its turns between. What counts is the best processor time of each; what the program takes to hash nothing, its
start and the making of the content, is taken off. Printed are megabytes a second and two ratios. The hasher is wanted
at 0.95 of SHA-256 alone or more; the status is 1 below that, and where a hash isn't what hashlib tells.
"""

import hashlib
import os
import resource
import subprocess
import sys

BLOCK_BYTES = 4_194_304
CONTENT = b"a" * 67_108_864
TURNS = 8
TIMES = 3
WANTED = 0.95
PROGRAM = os.path.join(os.path.dirname(__file__), "../crates/content_hash_bench/out/content_hash_bench")
OPENSSL = ["openssl", "speed", "-mr", "-seconds", "1", "-bytes", "65536", "sha256"]


def run(words):
    """What a program prints, and the seconds of processor time that it takes."""
    begun = resource.getrusage(resource.RUSAGE_CHILDREN).ru_utime
    out = subprocess.run(words, check=True, capture_output=True, text=True).stdout
    return out, resource.getrusage(resource.RUSAGE_CHILDREN).ru_utime - begun


def bytes_a_second(way, wanted):
    """Bytes a second of the program, and whether the hash is as wanted."""
    _, idle = run([PROGRAM, way, "0"])
    told, busy = run([PROGRAM, way, str(TIMES)])
    return TIMES * len(CONTENT) / (busy - idle), told.strip() == wanted


def openssl():
    """Bytes a second of OpenSSL's SHA-256."""
    told, _ = run(OPENSSL)
    return float(next(line for line in told.splitlines() if line.startswith("+F:")).split(":")[-1])


def content_hash(content):
    """The content hash, by hashlib."""
    blocks = (content[place : place + BLOCK_BYTES] for place in range(0, len(content), BLOCK_BYTES))
    return hashlib.sha256(b"".join(hashlib.sha256(block).digest() for block in blocks)).hexdigest()


def main():
    wanted = {"content": content_hash(CONTENT), "sha2": hashlib.sha256(CONTENT).hexdigest()}
    best = {"content": 0, "sha2": 0, "openssl": 0}
    right = True
    for turn in range(TURNS):
        for way in ("content", "sha2") if turn % 2 == 0 else ("sha2", "content"):
            rate, same = bytes_a_second(way, wanted[way])
            best[way] = max(best[way], rate)
            right = right and same
        best["openssl"] = max(best["openssl"], openssl())
    rates = {way: f"{rate / 1e6:.0f} MB/s" for way, rate in best.items()}
    ratio = best["content"] / best["sha2"]
    print(f"load {os.getloadavg()[0]:.1f}")
    print(f"content hash {rates['content']}, sha2 alone {rates['sha2']}, ratio {ratio:.3f}")
    print(f"sha2 alone {rates['sha2']}, openssl {rates['openssl']}, ratio {best['sha2'] / best['openssl']:.2f}")
    if not right:
        print("a hash isn't what hashlib tells", file=sys.stderr)
    return 0 if right and ratio >= WANTED else 1


if __name__ == "__main__":
    sys.exit(main())
