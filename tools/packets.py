"""Captures of a few packets, byte by byte."""
import struct

HEADER = struct.pack('<IHHiIII', 0xa1b2c3d4, 2, 4, 0, 0, 262144, 1)
HOME = 40000


def rtp(number, timestamp, ssrc=0x11223344, payload=b'\1\2\3\4'):
    """A packet of RTP of type 96."""
    return struct.pack('>BBHII', 0x80, 96, number % 2**16, timestamp % 2**32, ssrc) + payload


def frame(payload, to=5004, source=HOME):
    """The Ethernet frame of a UDP datagram from 10.0.0.1 to 10.0.0.2."""
    udp = struct.pack('>HHHH', source, to, 8 + len(payload), 0) + payload
    return (bytes.fromhex('0200000000020200000000010800')
            + struct.pack('>BBHHHBBH', 0x45, 0, 20 + len(udp), 0, 0, 64, 17, 0)
            + bytes([10, 0, 0, 1, 10, 0, 0, 2]) + udp)


def record(ms, content):
    """A record of a capture, at so many milliseconds."""
    return struct.pack('<IIII', ms // 1000, ms % 1000 * 1000, len(content), len(content)) + content


def capture(records):
    """The bytes of a capture of these frames, each with its time in milliseconds."""
    return HEADER + b''.join(record(ms, content) for ms, content in records)
