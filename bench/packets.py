#!/usr/bin/env python3
"""Packets per second of `replay`, from the capture's bytes to the log's, for streams of three lengths.

usage: bench/packets.py PROGRAM

One packet a millisecond, every fiftieth missing, two in a hundred out of order. The rate should not
fall with the length of the stream: the work for a packet doesn't grow with what came before.
"""
import os
import struct
import subprocess
import sys
import tempfile
import time

SCRIPT = 'session 0 5004 5005\npt 0 96 90000\nset latency 60\nset probation 0\nset mode none\n'
LENGTHS = (10_000, 100_000, 1_000_000)
RUNS = 3


def frame(number, timestamp, ssrc=0x11223344):
    rtp = struct.pack('>BBHII', 0x80, 96, number % 65536, timestamp % 2**32, ssrc) + bytes(160)
    udp = struct.pack('>HHHH', 40000, 5004, 8 + len(rtp), 0) + rtp
    ip = struct.pack('>BBHHHBBH4s4s', 0x45, 0, 20 + len(udp), 0, 0, 64, 17, 0, bytes([10, 0, 0, 1]),
                     bytes([10, 0, 0, 2])) + udp
    return bytes.fromhex('020000000002020000000001') + b'\x08\x00' + ip


def arrivals(count):
    """(arrival in microseconds, index), in order of arrival."""
    late = {i: 5000 for i in range(30, count, 50)}
    return sorted((i * 1000 + late.get(i, 0), i) for i in range(count) if i % 50 != 7)


def write_frames(path, frames):
    """Each frame by its arrival in microseconds and its bytes."""
    with open(path, 'wb') as file:
        file.write(struct.pack('<IHHiIII', 0xa1b2c3d4, 2, 4, 0, 0, 262144, 1))
        for at, bytes_ in frames:
            file.write(struct.pack('<IIII', at // 10**6, at % 10**6, len(bytes_), len(bytes_)) + bytes_)


def write_capture(path, arriving, sources=1):
    """Each packet of `arriving` by its arrival in microseconds and its index, from so many sources."""
    write_frames(path, ((at, frame(i + 1, 90 * i, 0x11223344 + source))
                        for at, i in arriving for source in range(sources)))


def seconds(program, capture, script):
    with open(os.devnull, 'wb') as nowhere:
        begin = time.perf_counter()
        subprocess.run([program, 'replay', capture, script], stdout=nowhere, check=True)
        return time.perf_counter() - begin


def main():
    if len(sys.argv) != 2:
        sys.exit(__doc__)
    program = os.path.abspath(sys.argv[1])
    first = None
    with tempfile.TemporaryDirectory() as folder:
        script = os.path.join(folder, 'script')
        with open(script, 'w', encoding='ascii') as file:
            file.write(SCRIPT)
        for count in LENGTHS:
            capture = os.path.join(folder, 'capture.pcap')
            write_capture(capture, arrivals(count))
            rate = count / min(seconds(program, capture, script) for _ in range(RUNS))
            first = first or rate
            print('%9d packets: %9.0f a second, %.2f of the first' % (count, rate, rate / first))


if __name__ == '__main__':
    main()
