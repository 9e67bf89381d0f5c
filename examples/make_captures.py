#!/usr/bin/env python3
"""Writes the example captures, each of UDP datagrams in Ethernet frames.

reordered.pcap  a call of twelve packets in which two come in the wrong order, one comes twice and one
                comes too late
lossy.pcap      a call that loses four packets: three come again as retransmissions (RFC 4588), one
                never does
answered.pcap   what the sender of that call sent, and the NACKs that came back to it
synced.pcap     sound and pictures of one sender, in two sessions, with sender reports
joined.pcap     a call in which a second source joins, and the first one says BYE and leaves

usage: examples/make_captures.py [FOLDER]
"""
import os
import struct
import sys

MS = 1_000_000  # nanoseconds

CALLER = 0x11223344
AGAIN = 0x55667788
GUEST = 0x99AABBCC


# ---- packets -------------------------------------------------------------------------------------

def rtp(number, timestamp, ssrc=CALLER, kind=96, payload=None, marker=0):
    """A packet of RTP (RFC 3550, section 5.1)."""
    head = struct.pack('>BBHII', 0x80, marker << 7 | kind, number, timestamp, ssrc)
    return head + (bytes([number % 256] * 4) if payload is None else payload)


def again(own, number, timestamp):
    """A retransmission: the original number stands before the original payload (RFC 4588, section 4)."""
    return rtp(own, timestamp, AGAIN, 97, struct.pack('>H', number) + bytes([number % 256] * 4))


def rtcp(kind, count, body):
    return struct.pack('>BBH', 0x80 | count, kind, len(body) // 4) + body


def nack(number):
    """A generic NACK (RFC 4585, section 6.2.1) for one number of the caller."""
    return rtcp(205, 1, struct.pack('>IIHH', 1, CALLER, number, 0))


def sender_report(ssrc, ntp_ms, timestamp):
    """The NTP time is the least whose nanoseconds are those of the milliseconds."""
    seconds, rest = divmod(ntp_ms, 1000)
    fraction = -(-rest * 2**32 // 1000)
    return rtcp(200, 0, struct.pack('>IIIIII', ssrc, seconds, fraction, timestamp, 1, 4))


def names(ssrc, cname):
    """A description with a CNAME (RFC 3550, section 6.5)."""
    chunk = struct.pack('>IBB', ssrc, 1, len(cname)) + cname
    return rtcp(202, 1, chunk + bytes(4 - len(chunk) % 4))


def bye(ssrc):
    return rtcp(203, 1, struct.pack('>I', ssrc))


# ---- captures ------------------------------------------------------------------------------------

def frame(payload, port):
    udp = struct.pack('>HHHH', 40000, port, 8 + len(payload), 0) + payload
    ip = struct.pack('>BBHHHBBH4s4s', 0x45, 0, 20 + len(udp), 0, 0, 64, 17, 0, bytes([10, 0, 0, 1]),
                     bytes([10, 0, 0, 2])) + udp
    return bytes.fromhex('020000000002020000000001') + b'\x08\x00' + ip


def capture(datagrams):
    """A pcap file of (time in ns, port, payload), in order of time."""
    out = struct.pack('<IHHiIII', 0xa1b2c3d4, 2, 4, 0, 0, 262144, 1)
    for time, port, payload in sorted(datagrams, key=lambda datagram: datagram[0]):
        seconds, rest = divmod(time, 1000 * MS)
        data = frame(payload, port)
        out += struct.pack('<IIII', seconds, rest // 1000, len(data), len(data)) + data
    return out


def sound(number):
    """20 ms of sound at 90,000 ticks a second."""
    return rtp(number, 1800 * (number - 1))


def reordered():
    arrivals = [(1, 0), (2, 20), (4, 61), (3, 63), (5, 80), (6, 100), (6, 101), (8, 140), (9, 160),
                (10, 181), (7, 223), (11, 224), (12, 240)]
    return [(ms * MS, 5004, sound(number)) for number, ms in arrivals]


def lossy():
    lost = {4, 9, 10, 15}
    first = [(20 * (number - 1) * MS, 5004, sound(number))
             for number in range(1, 21) if number not in lost]
    repeated = [(own, number, at) for own, (number, at) in enumerate([(4, 128), (9, 231), (15, 352)])]
    return first + [(at * MS, 5004, again(own, number, 1800 * (number - 1)))
                    for own, number, at in repeated]


def answered():
    """The sender of the lossy call: all that it sent, and the NACKs that came back to it."""
    sent = [(20 * (number - 1) * MS, 5004, sound(number)) for number in range(1, 21)]
    return sent + [(at * MS, 5005, nack(number)) for number, at in
                   [(4, 80), (9, 180), (10, 220), (15, 300)]]


def synced():
    datagrams = [(20 * i * MS, 5004, rtp(100 + i, 160 * i, CALLER, 0)) for i in range(15)]
    # a picture of two packets each 40 ms, the second one marked
    for i in range(8):
        for part in range(2):
            packet = rtp(7000 + 2 * i + part, 3600 * i, GUEST, 96, bytes(20), part)
            datagrams.append(((3 + 40 * i + part) * MS, 5006, packet))
    name = b'caller@home'
    datagrams.append((90 * MS, 5005, sender_report(CALLER, 1_000_090, 720) + names(CALLER, name)))
    datagrams.append((95 * MS, 5007, sender_report(GUEST, 1_000_115, 8280) + names(GUEST, name)))
    return datagrams


def joined():
    datagrams = [(20 * i * MS, 5004, rtp(65530 + i & 65535, 160 * i, CALLER, 0)) for i in range(20)]
    datagrams += [((200 + 20 * i) * MS, 5004, rtp(500 + i, 160 * i, GUEST, 0)) for i in range(30)
                  if i not in (1, 12)]
    datagrams.append((150 * MS, 5005, sender_report(CALLER, 1_000_150, 1200)
                      + names(CALLER, b'caller@home')))
    datagrams.append((390 * MS, 5005, rtcp(201, 0, struct.pack('>I', CALLER)) + bye(CALLER)))
    return datagrams


def main():
    folder = sys.argv[1] if len(sys.argv) > 1 else os.path.dirname(os.path.abspath(__file__))
    for make in (reordered, lossy, answered, synced, joined):
        with open(os.path.join(folder, make.__name__ + '.pcap'), 'wb') as file:
            file.write(capture(make()))


if __name__ == '__main__':
    main()
