#!/usr/bin/env python3
"""What each limit costs: processor time, peak memory and output of runs that reach it.

usage: bench/limits.py PROGRAM [WORD..]

With words, only the cases whose names have one of them. For each case the bytes of the capture and the
script, the bytes of the output, processor time and peak memory; of less than 13 MB, which the process
that starts the program has, nothing is seen.
"""
import os
import struct
import subprocess
import sys
import tempfile

from usage import usage_of

HEADER = struct.pack('<IHHiIII', 0xa1b2c3d4, 2, 4, 0, 0, 262144, 1)
PLAIN = 'session 0 5004 5005\npt 0 96 90000\nset probation 0\nset mode none\nset latency 100\n'
WAITING = PLAIN.replace('latency 100', 'latency 600000')
PAIRED = 'rtx 0 97 0 96\nfid 0 00000007 00000008\n'
SENT_AGAIN = PLAIN + PAIRED + 'set history 4096\n'


def rtp(number, timestamp=0, ssrc=7, payload=bytes(160), kind=96):
    return struct.pack('>BBHII', 0x80, kind, number % 65536, timestamp % 2**32, ssrc) + payload


def record(ms, payload, to=5004):
    udp = struct.pack('>HHHH', 40000, to, 8 + len(payload), 0) + payload
    ip = struct.pack('>BBHHHBBH', 0x45, 0, 20 + len(udp), 0, 0, 64, 17, 0)
    content = bytes(12) + b'\x08\0' + ip + bytes([10, 0, 0, 1, 10, 0, 0, 2]) + udp
    return struct.pack('<IIII', ms // 1000, ms % 1000 * 1000, len(content), len(content)) + content


def lanes(packets, size):
    """64 lanes of so many packets, whose payload has so many bytes, and none of which leaves before the end."""
    for number in range(packets):
        for ssrc in range(64):
            yield record(0, rtp(number, 90 * number, ssrc, bytes(size)))


def held_back():
    """64 sources of each of 8 sessions, and 15 packets of each that wait in probation."""
    for number in range(15):
        for ssrc in range(64):
            for session in range(8):
                yield record(0, rtp(number, 0, ssrc, bytes(1000)), 5004 + 2 * session)


def eight_sessions():
    lines = ['session %d %d %d\n' % (s, 5004 + 2 * s, 5005 + 2 * s) for s in range(8)]
    return ''.join(lines) + 'pt 0 96 90000\nset probation 16\n'


def jumps(count):
    """Each packet jumps 2,999 numbers ahead, so that those between are lost."""
    for i in range(count):
        yield record(3 * i, rtp(2999 * i, 270 * i, payload=bytes(4)))


def names(count):
    """Sources that take a new name of 255 bytes with each compound."""
    for ssrc in range(64):
        yield record(0, rtp(0, 0, ssrc))
    for i in range(count):
        chunk = struct.pack('>I', i % 64) + b'\1\xff' + b'%0255d' % i + bytes(3)
        compound = struct.pack('>BBHI', 0x80, 201, 1, 9) + struct.pack('>BBH', 0x81, 202, len(chunk) // 4) + chunk
        yield record(1, compound, 5005)


def asked(count):
    """4,096 packets, and NACKs of 9,216 bytes that ask for 2,301 times 17 of them."""
    for number in range(4096):
        yield record(0, rtp(number, 0))
    entries = b''.join(struct.pack('>HH', 17 * i % 4080, 65535) for i in range(2301))
    nack = struct.pack('>BBHII', 0x81, 205, 2 + 2301, 1, 7) + entries
    for _ in range(count):
        yield record(1, nack, 5005)


def fragments(count):
    """Fragments of H.264 units that pass the greatest size of a unit."""
    for i in range(count):
        yield record(i // 100, rtp(i, 0, payload=b'\x7c\5' + bytes(9000)))


CASES = [
    ('an empty capture', ['replay'], PLAIN, lambda: ()),
    ('64 lanes of 8,192 packets of 12 and 4 bytes', ['replay'], WAITING, lambda: lanes(8192, 4)),
    ('64 lanes of 8,192 packets of 12 and 160 bytes', ['replay'], WAITING, lambda: lanes(8192, 160)),
    ('64 lanes of 1,000 packets of 12 and 9,204 bytes', ['replay'], WAITING, lambda: lanes(1000, 9204)),
    ('512 sources with 15 packets in probation', ['replay'], eight_sessions(), held_back),
    ('1,000 jumps by 2,999 numbers', ['replay'], PLAIN, lambda: jumps(1000)),
    ('100 jumps by 2,999 numbers that are asked for', ['replay'], PLAIN + PAIRED + 'set rtx on\n',
     lambda: jumps(100)),
    ('50,000 names of 255 bytes', ['replay'], PLAIN, lambda: names(50_000)),
    ('a clock item with 1,000,000 report times', ['replay'], PLAIN + 'set report 1\nat 1000000 clock\n',
     lambda: [record(0, rtp(1))]),
    ('20 NACKs for 39,100 packets', ['rtxsend'], SENT_AGAIN, lambda: asked(20)),
    ('20,000 fragments of H.264', ['depay', 'h264', '96'], PLAIN, lambda: fragments(20_000)),
]


def written(words):
    """How many bytes a run writes."""
    with subprocess.Popen(words, stdout=subprocess.PIPE) as ran:
        return sum(len(piece) for piece in iter(lambda: ran.stdout.read(1 << 20), b''))


def main():
    if len(sys.argv) < 2:
        sys.exit(__doc__)
    program, chosen = os.path.abspath(sys.argv[1]), sys.argv[2:]
    with tempfile.TemporaryDirectory() as folder:
        capture, script = os.path.join(folder, 'capture'), os.path.join(folder, 'script')
        for name, words, text, records in CASES:
            if chosen and not any(word in name for word in chosen):
                continue
            with open(capture, 'wb') as file:
                file.write(HEADER)
                file.writelines(records())
            with open(script, 'w', encoding='ascii') as file:
                file.write(text)
            run = [program, *words, capture, script]
            took, peak = usage_of(run)
            print('%s: %.1f MB in, %.1f MB out, %.2f s, %.1f MB of memory' %
                  (name, (os.path.getsize(capture) + len(text)) / 1e6, written(run) / 1e6, took, peak),
                  flush=True)


if __name__ == '__main__':
    main()
