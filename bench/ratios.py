#!/usr/bin/env python3
"""Processor time for a packet as a multiple of that of one lane, and peak memory, for all cases in one run.

usage: bench/ratios.py PROGRAM

A hundred thousand packets each, one a millisecond where nothing else is said. A gap of G: every 2 * G
packets one comes G places ahead of the others. Each ratio is to the first case; those of the lengths, the
gaps and the requests should stay near 1, since the work for a packet grows neither with what came before
nor with what is missing. Where `rustc` is installed, `replay` and `dump` of a million packets are measured
beside bench/plain/plain.rs, which writes the same lines.
"""
import filecmp
import os
import random
import shutil
import subprocess
import sys
import tempfile

from packets import arrivals, frame, write_capture, write_frames
from usage import usage_of

COUNT = 100_000
SCRIPT = 'session 0 5004 5005\npt 0 96 90000\nset latency %d\nset probation 0\nset mode none\n'
REQUESTS = 'rtx 0 97 0 96\nset rtx on\n'
GAPS = (2, 100, 1_000, 2_900, 8_000)
LENGTHS = (10_000, 100_000, 1_000_000, 10_000_000)
PLAIN = os.path.join(os.path.dirname(os.path.abspath(__file__)), 'plain', 'plain.rs')
RUNS = 3


def ahead(count, gap):
    """(arrival in microseconds, index): the first of each 2 * gap packets comes after the one gap ahead."""
    order = []
    for i in range(count):
        if i % (2 * gap) == 0:
            order.append(i + gap)
        if i % (2 * gap) != gap:
            order.append(i)
    return [(at * 1000, i) for at, i in enumerate(order)]


def lossy(count):
    """(arrival in microseconds, index): of twenty packets one is lost."""
    chance = random.Random(1)
    return [(i * 1000, i) for i in range(count) if chance.randrange(20)]


def flood(count):
    """Frames of one stream, with a packet of a source that sends no other after each."""
    for i in range(count):
        yield i * 1000, frame(i + 1, 90 * i)
        yield i * 1000, frame(1, 0, 0x55000000 + i)


def cases(path):
    """(name, script, how many packets), once the case's capture is written."""
    for count in LENGTHS[1:] + LENGTHS[:1]:
        write_capture(path, arrivals(count))
        yield '%d packets' % count, SCRIPT % 60, count
    write_capture(path, arrivals(COUNT // 64), 64)
    yield '64 lanes', SCRIPT % 60, COUNT
    write_capture(path, lossy(COUNT))
    yield '5 % lost', SCRIPT % 60, COUNT
    yield '5 % lost, requests', SCRIPT % 60 + REQUESTS, COUNT
    for gap in GAPS:
        write_capture(path, ahead(COUNT, gap))
        yield 'gap of %d' % gap, SCRIPT % 9_000 + 'set dropout 9000\n', COUNT
        yield 'gap of %d, requests' % gap, SCRIPT % 9_000 + 'set dropout 9000\n' + REQUESTS, COUNT
    write_frames(path, flood(COUNT))
    yield 'flood of sources', SCRIPT % 60, 2 * COUNT
    write_capture(path, arrivals(COUNT))
    yield 'dump', None, COUNT


def words_of(program, path, script, text):
    """The command of a case."""
    if text is None:
        return [program, 'dump', path]
    with open(script, 'w', encoding='ascii') as file:
        file.write(text)
    return [program, 'replay', path, script]


def output_of(words, path):
    """The path, once what the program writes stands there."""
    with open(path, 'wb') as file:
        subprocess.run(words, stdout=file, check=True)
    return path


def beside_plain(program, folder):
    """Prints processor time of the commands as a multiple of that of the program written by hand."""
    plain, path, script = (os.path.join(folder, name) for name in ('plain', 'capture', 'script'))
    subprocess.run(['rustc', '--edition', '2021', '-O', '-o', plain, PLAIN], check=True)
    write_capture(path, arrivals(1_000_000))
    pairs = [(words_of(program, path, script, SCRIPT % 60), [plain, 'replay', path, '60']),
             (words_of(program, path, script, None), [plain, 'dump', path])]
    for ours, theirs in pairs:
        logs = [output_of(words, os.path.join(folder, name))
                for words, name in ((ours, 'ours'), (theirs, 'theirs'))]
        if not filecmp.cmp(*logs, shallow=False):
            sys.exit('%s and the plain program write different lines' % ours[1])
        took, least = (min(usage_of(words)[0] for _ in range(RUNS)) for words in (ours, theirs))
        print('%-24s %6.2f s, %5.2f of plain Rust' % (ours[1] + ' beside plain', took, took / least),
              flush=True)


def main():
    if len(sys.argv) != 2:
        sys.exit(__doc__)
    program, first = os.path.abspath(sys.argv[1]), None
    with tempfile.TemporaryDirectory() as folder:
        if shutil.which('rustc'):
            beside_plain(program, folder)
        path, script = os.path.join(folder, 'capture'), os.path.join(folder, 'script')
        for name, text, count in cases(path):
            words = words_of(program, path, script, text)
            runs = [usage_of(words) for _ in range(RUNS)]
            each = min(took for took, _ in runs) / count
            first = first or each
            print('%-24s %6.2f microseconds a packet, %5.2f of the first, %4.0f MB'
                  % (name, each * 1e6, each / first, max(peak for _, peak in runs)), flush=True)


if __name__ == '__main__':
    main()
