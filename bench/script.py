#!/usr/bin/env python3
"""Seconds that `replay` takes to read a script of up to 1 MiB, most of it timed lines, for scripts of four sizes.

usage: bench/script.py PROGRAM

The capture has no records, so nearly all of the time goes to the script. Its timed lines are replayed
too, with no lane that they could come to. The time for a line should not rise with the count of lines: no
test of a line costs work that grows with the lines before it. A text of 1,048,576 bytes has room for 95,000
timed lines of eleven bytes. The script with pairs and types has all that may stand in it: 8 sessions, a
payload type for each of their numbers, and 64 pairs.
"""
import os
import struct
import subprocess
import sys
import tempfile
import time

MAX_SCRIPT = 1_048_576
COUNTS = (1_000, 10_000, 50_000, 95_000)
RUNS = 5

SETTINGS = 'set latency 100\nset probation 0\nset mode none\n'
SESSION = 'session 0 5004 5005\npt 0 96 90000\n'


def timed(count):
    """Short timed lines, whose times rise from 0 to 9."""
    return SESSION + SETTINGS + ''.join('at %d clock\n' % (i * 10 // count) for i in range(count))


def declared():
    """Every payload type of every session, half of them for retransmissions, and as many pairs as may be."""
    lines = ['session %d %d %d\n' % (s, 5004 + 2 * s, 5005 + 2 * s) for s in range(8)]
    lines += ['pt %d %d 90000\n' % (s, pt) for s in range(8) for pt in range(64)]
    lines += ['rtx %d %d %d %d\n' % (s, pt + 64, s, pt) for s in range(8) for pt in range(64)]
    lines += ['fid %d %08x %08x\n' % (i % 8, 2 * i, 2 * i + 1) for i in range(64)]
    return ''.join(lines) + SETTINGS


def seconds(program, capture, path):
    begin = time.perf_counter()
    done = subprocess.run([program, 'replay', capture, path], stdout=subprocess.DEVNULL,
                          stderr=subprocess.PIPE, check=False)
    taken = time.perf_counter() - begin
    if done.returncode != 0:
        sys.exit('the program refused the script: %s' % done.stderr.decode('ascii', 'replace').strip())
    return taken


def measure(program, folder, capture, name, text):
    if len(text) > MAX_SCRIPT:
        sys.exit('the script has %d bytes' % len(text))
    path = os.path.join(folder, 'script')
    with open(path, 'w', encoding='ascii', newline='') as file:
        file.write(text)
    best = min(seconds(program, capture, path) for _ in range(RUNS))
    lines = text.count('\n')
    print('%-8s %6d lines, %7d bytes: %7.4f s, %6.3f microseconds a line'
          % (name, lines, len(text), best, best * 1e6 / lines))


def main():
    if len(sys.argv) != 2:
        sys.exit(__doc__)
    program = os.path.abspath(sys.argv[1])
    with tempfile.TemporaryDirectory() as folder:
        capture = os.path.join(folder, 'capture.pcap')
        with open(capture, 'wb') as file:
            file.write(struct.pack('<IHHiIII', 0xa1b2c3d4, 2, 4, 0, 0, 262144, 1))
        measure(program, folder, capture, 'declared', declared())
        for count in COUNTS:
            measure(program, folder, capture, 'timed', timed(count))


if __name__ == '__main__':
    main()
