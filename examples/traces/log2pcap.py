"""Makes a pcap trace of link type 227 from a log of candump: python3 log2pcap.py < drive.log > drive.pcap

A line is `(time) interface frame`, or a frame alone, whose time is 0. A line that says no classic frame is told on stderr and
left out, and the status is 1 then.
"""
import re
import struct
import sys

# A time, an interface, an identifier, and what stands behind `#`. Flags may follow, and no more octets.
LINE = re.compile(r'(?:\((\d+)\.(\d{1,6})\)\s+)?(?:[^\s#]+\s+)?([0-9A-Fa-f]{3}|[0-9A-Fa-f]{8})#(?!#)(\S*)'
                  r'(?:\s+(?![0-9A-Fa-f]{2}(?:\s|$)).*)?')
OCTETS = re.compile(r'((?:[0-9A-Fa-f]{2}\.?){0,8}?)(?:_[9A-Fa-f])?')
REMOTE = re.compile(r'R([0-8]?)(?:_[9A-Fa-f])?')
# Flags of the identifier's word: an extended frame, a remote one, an error frame.
EXTENDED, IS_REMOTE, IS_ERROR = 0x80000000, 0x40000000, 0x20000000


def record(digits, payload):
    """The record of a frame, or None where its payload is none."""
    word = int(digits, 16)
    if len(digits) == 8 and not word & IS_ERROR:
        word |= EXTENDED
    remote, octets = REMOTE.fullmatch(payload), OCTETS.fullmatch(payload)
    if remote:
        return struct.pack('>IB11x', word | IS_REMOTE, int(remote[1] or 0))
    if not octets:
        return None
    data = bytes.fromhex(octets[1].replace('.', ''))
    return struct.pack('>IB3x', word, len(data)) + data.ljust(8, b'\0')


def main():
    out, left_out = sys.stdout.buffer, 0
    out.write(struct.pack('>IHHiIII', 0xA1B2C3D4, 2, 4, 0, 0, 262144, 227))
    for number, line in enumerate(sys.stdin, 1):
        if not line.strip() or line.startswith('#'):
            continue
        found = LINE.fullmatch(line.strip())
        made = found and record(found[3], found[4])
        if not made:
            left_out += 1
            print(f'log2pcap: line {number}: no classic frame; one is written 18FEF100#0102, or 123#R for a remote one',
                  file=sys.stderr)
            continue
        seconds, micro = int(found[1] or 0), int((found[2] or '0').ljust(6, '0'))
        out.write(struct.pack('>IIII', seconds, micro, len(made), len(made)) + made)
    return 1 if left_out else 0


if __name__ == '__main__':
    sys.exit(main())
