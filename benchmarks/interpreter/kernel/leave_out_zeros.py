#!/usr/bin/env python3
"""Copies an image text of objcopy without the lines that are all zeros."""
import sys


def main():
    address, written = 0, None
    for line in sys.stdin:
        if line.startswith("@"):
            address = int(line[1:], 16)
            continue
        if line.split().count("00") < len(line.split()):
            if written != address:
                sys.stdout.write(f"@{address:08X}\n")
            sys.stdout.write(line)
            written = address + len(line.split())
        address += len(line.split())


if __name__ == "__main__":
    main()
