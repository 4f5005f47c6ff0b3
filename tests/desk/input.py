#!/usr/bin/env python3
"""Writes records for the desk program: input.py SEED COUNT [BYTES OF A CUT RECORD]."""
import random
import sys


def mailbox(draw):
    """Registers and two sectors: often a good key, status or sector command, now and then any bytes."""
    kind = draw.choice([0, 1, 2, 3, 4, 4, 4, 5, 6, 7])
    registers, sector, second = bytearray(16), bytearray(512), draw.randbytes(512)
    if kind < 3:
        registers[0], registers[2], registers[4] = 0xD6, 1, 0xE0
        action = draw.choice([1, 1, 1, 2, 2, 2, 3, 4, 5, 6])
        words = [action, draw.choice([0, 1, 1, 2, 3]), draw.randrange(4), draw.randrange(12), draw.randrange(3)]
        if action == 1:
            sector[4:12] = draw.randrange(66).to_bytes(8, "little")
            words = words[:2]
        elif action == 2:
            sector[4:12] = draw.randrange(66).to_bytes(8, "little")
            sector[12:20] = draw.randrange(66).to_bytes(8, "little")
            sector[20:24] = draw.randbytes(4)
            words = words[:2]
        for i, word in enumerate(words):
            sector[2 * i:2 * i + 2] = word.to_bytes(2, "little")
    elif kind == 3:
        registers[0], registers[2], registers[4] = 0xD5, 1, 0xE0
    elif kind == 4:
        registers[0], registers[2], registers[4] = draw.choice([0xD5, 0xD6]), draw.choice([1, 2]), 0xE1
        sector[:] = draw.randbytes(512)
    if kind < 5:
        registers[6], registers[8], registers[11] = 0x4F, 0xC2, 0xB0
    elif kind < 7:
        registers[2], registers[4], registers[11] = 1, draw.randrange(66), draw.choice([0x24, 0x34])
        sector[:] = draw.randbytes(512)
    else:
        registers[:], sector[:] = draw.randbytes(16), draw.randbytes(512)
    return bytes(registers + sector + second)


def main():
    draw = random.Random(int(sys.argv[1]))
    out = sys.stdout.buffer
    for _ in range(int(sys.argv[2])):
        out.write(bytes([draw.choice([0, 0, 1, 10, 64, 255])]) + mailbox(draw))
    if len(sys.argv) > 3:
        out.write(draw.randbytes(int(sys.argv[3])))


main()
