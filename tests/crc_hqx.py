#!/usr/bin/env python3
"""Checks built blocks with binascii.crc_hqx, an implementation of the same register.

Reads lines of k and a packed block in hexadecimal from the file named, or standard input.
"""

import binascii
import sys


def fault(line):
    """What is wrong with one block, or None."""
    k, block = line.split()
    k, packed = int(k), bytes.fromhex(block)
    if len(packed) != k // 8 + 3:
        return "wrong length"
    number = int.from_bytes(packed, "big")
    if number & 0xF:
        return "a spare bit is one"
    message, check = number >> 20, number >> 4 & 0xFFFF
    # Service bits and data, with four zero bits in front, which change nothing.
    register = binascii.crc_hqx(message.to_bytes(k // 8 + 1, "big"), 0)
    if register != check:
        return f"check bits {check:04x}, crc_hqx {register:04x}"
    return None


def main():
    lines = open(sys.argv[1]) if len(sys.argv) > 1 else sys.stdin
    count = 0
    for line in lines:
        wrong = fault(line)
        if wrong:
            sys.exit(f"{wrong}: {line.strip()}")
        count += 1
    if count == 0:
        sys.exit("no blocks to check")
    print(f"crc_hqx: {count} blocks agree")


if __name__ == "__main__":
    main()
