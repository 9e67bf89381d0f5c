#!/usr/bin/env python3
"""Packets per second of processor time of `replay`, and its peak memory: one lane, 64 lanes, and one lane with requests on.

usage: bench/lanes.py PROGRAM

A million packets each, every fiftieth missing, two in a hundred out of order. The three rates should
lie within a factor of two of each other.
"""
import os
import sys
import tempfile

from packets import arrivals, write_capture
from usage import usage_of

COUNT = 1_000_000
SCRIPT = 'session 0 5004 5005\npt 0 96 90000\nset latency 60\nset probation 0\nset mode none\n'
REQUESTS = SCRIPT + 'rtx 0 97 0 96\nset rtx on\n'
RUNS = 3


def cases():
    """(name, script, how many lanes share the packets)."""
    yield 'one lane', SCRIPT, 1
    yield '64 lanes', SCRIPT, 64
    yield 'one lane with requests', REQUESTS, 1


def measured(program, capture, script):
    """Seconds of processor time of the fastest run, and its peak memory in MB."""
    runs = [usage_of([program, 'replay', capture, script]) for _ in range(RUNS)]
    return min(took for took, _ in runs), max(peak for _, peak in runs)


def main():
    if len(sys.argv) != 2:
        sys.exit(__doc__)
    program, rates = os.path.abspath(sys.argv[1]), []
    with tempfile.TemporaryDirectory() as folder:
        capture, script = os.path.join(folder, 'capture'), os.path.join(folder, 'script')
        for name, text, lanes in cases():
            with open(script, 'w', encoding='ascii') as file:
                file.write(text)
            arriving = arrivals(COUNT // lanes)
            count = len(arriving) * lanes
            write_capture(capture, arriving, lanes)
            took, peak = measured(program, capture, script)
            rates.append(count / took)
            print('%s: %d packets in %.2f s, %.2f million a second, %.0f MB' %
                  (name, count, took, count / took / 10**6, peak))
    print('greatest over least rate: %.2f' % (max(rates) / min(rates)))


if __name__ == '__main__':
    main()
