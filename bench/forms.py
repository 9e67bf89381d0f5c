#!/usr/bin/env python3
"""Processor time of `dump` on the same records as a pcap capture and as a pcapng file.

usage: bench/forms.py PROGRAM

A million packets, each in the pcapng file with the filling of its frame and no options. The form should
cost little: pcapng is wanted at no less than 0.8 of pcap's speed.
"""
import os
import struct
import subprocess
import sys
import tempfile

from packets import arrivals, frame, write_capture

COUNT = 1_000_000
RUNS = 3
WANTED = 0.8


def block(kind, body):
    size = 12 + len(body)
    return struct.pack('<II', kind, size) + body + struct.pack('<I', size)


def write_pcapng(path, arriving):
    """The packets of `arriving`, by arrival in microseconds and index, behind one Ethernet interface."""
    with open(path, 'wb') as file:
        file.write(block(0x0a0d0d0a, struct.pack('<IHHq', 0x1a2b3c4d, 1, 0, -1)))
        file.write(block(1, struct.pack('<HHI', 1, 0, 262144)))
        for at, i in arriving:
            bytes_ = frame(i + 1, 90 * i)
            fields = struct.pack('<IIIII', 0, at >> 32, at % 2**32, len(bytes_), len(bytes_))
            file.write(block(6, fields + bytes_ + bytes(-len(bytes_) % 4)))


def dumped(program, capture, lines):
    """Processor seconds of the fastest run, which writes to `lines`."""
    best = None
    for _ in range(RUNS):
        with open(lines, 'wb') as out:
            child = subprocess.Popen([program, 'dump', capture], stdout=out)
            _, status, usage = os.wait4(child.pid, 0)
        if status:
            sys.exit('status %d for %s' % (status, os.path.basename(capture)))
        took = usage.ru_utime + usage.ru_stime
        best = took if best is None else min(best, took)
    return best


def content(path):
    with open(path, 'rb') as file:
        return file.read()


def main():
    if len(sys.argv) != 2:
        sys.exit(__doc__)
    program, arriving = os.path.abspath(sys.argv[1]), arrivals(COUNT)
    with tempfile.TemporaryDirectory() as folder:
        took = {}
        for name, write in (('pcap', write_capture), ('pcapng', write_pcapng)):
            write(os.path.join(folder, name), arriving)
            took[name] = dumped(program, os.path.join(folder, name), os.path.join(folder, name + '.lines'))
            print('%s: %d packets in %.2f s of the processor' % (name, len(arriving), took[name]))
        if content(os.path.join(folder, 'pcap.lines')) != content(os.path.join(folder, 'pcapng.lines')):
            sys.exit('the lines differ')
    ratio = took['pcap'] / took['pcapng']
    print('speed of pcapng over that of pcap: %.2f, wanted %.2f' % (ratio, WANTED))
    sys.exit(0 if ratio >= WANTED else 1)


if __name__ == '__main__':
    main()
