#!/usr/bin/env python3
"""Processor time and peak memory of `replay` over floods of sources, beside a stream of one source.

usage: bench/flood.py PROGRAM

Each packet of a flood has an SSRC of its own: with probation, without it, and with reports that remove
the sources that are silent. The time for a packet should not grow with the length of a flood and be
within three times that of the common stream; the peak memory should stay the same.
"""
import os
import struct
import sys
import tempfile

from packets import frame
from usage import usage_of

COUNTS = (10_000, 100_000, 1_000_000)
SCRIPT = 'session 0 5004 5005\npt 0 96 90000\nset latency 60\nset mode none\n'
AT_ONCE = SCRIPT + 'set probation 0\n'
# (name, script, how far apart the SSRCs of neighbours are)
CASES = [('one source', AT_ONCE, 0),
         ('sources in probation', SCRIPT, 1),
         ('sources at once', AT_ONCE, 1),
         ('sources that are removed', AT_ONCE + 'set report 100\nset timeout 50\n', 1)]
RUNS = 2


def write_flood(path, count, apart):
    """A packet each millisecond."""
    with open(path, 'wb') as file:
        file.write(struct.pack('<IHHiIII', 0xa1b2c3d4, 2, 4, 0, 0, 262144, 1))
        for i in range(count):
            content = frame(i + 1, 90 * i, 0x20000000 + apart * i)
            file.write(struct.pack('<IIII', i // 1000, i % 1000 * 1000, len(content), len(content))
                       + content)


def measured(program, capture, script):
    """Seconds of processor time of the fastest run, and its peak memory in MB."""
    runs = [usage_of([program, 'replay', capture, script]) for _ in range(RUNS)]
    return min(took for took, _ in runs), max(peak for _, peak in runs)


def main():
    if len(sys.argv) != 2:
        sys.exit(__doc__)
    program, common = os.path.abspath(sys.argv[1]), {}
    with tempfile.TemporaryDirectory() as folder:
        capture, script = os.path.join(folder, 'capture'), os.path.join(folder, 'script')
        for name, text, apart in CASES:
            with open(script, 'w', encoding='ascii') as file:
                file.write(text)
            for count in COUNTS:
                write_flood(capture, count, apart)
                took, peak = measured(program, capture, script)
                common.setdefault(count, took)
                print('%s: %d packets, %.2f microseconds each, %.2f times one source, %.1f MB' %
                      (name, count, took / count * 10**6, took / common[count], peak), flush=True)


if __name__ == '__main__':
    main()
