#!/usr/bin/env python3
"""Packets per second of `replay` where packets are held behind a gap, for gaps of four lengths.

usage: bench/held.py PROGRAM

One packet a millisecond, and one missing so often that half of the time a gap is open: behind it as many
packets are held as the latency has milliseconds. The rate should not fall with that number: the work for a
packet doesn't grow with what is held.
"""
import os
import sys
import tempfile

from packets import seconds, write_capture

SCRIPT = 'session 0 5004 5005\npt 0 96 90000\nset latency %d\nset probation 0\nset mode none\n'
LATENCIES = (125, 500, 2_000, 8_000)
COUNT = 200_000
RUNS = 3


def arrivals(latency):
    """(arrival in microseconds, index)."""
    return ((i * 1000, i) for i in range(COUNT) if i % (2 * latency) != 7)


def main():
    if len(sys.argv) != 2:
        sys.exit(__doc__)
    program = os.path.abspath(sys.argv[1])
    first = None
    with tempfile.TemporaryDirectory() as folder:
        capture = os.path.join(folder, 'capture.pcap')
        script = os.path.join(folder, 'script')
        for latency in LATENCIES:
            write_capture(capture, arrivals(latency))
            with open(script, 'w', encoding='ascii') as file:
                file.write(SCRIPT % latency)
            rate = COUNT / min(seconds(program, capture, script) for _ in range(RUNS))
            first = first or rate
            print('%5d held: %9.0f packets a second, %.2f of the first' % (latency, rate, rate / first))


if __name__ == '__main__':
    main()
