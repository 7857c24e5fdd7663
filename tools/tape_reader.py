#!/usr/bin/env python3
"""Reads a card as Square's Tape reads a queue file with the header of 16 bytes.

    tape_reader.py FILE ..    a line for each file: its records in hexadecimal, or why Tape refuses it

Written from what Tape's QueueFile does, and from nothing else in this repository, so that the two can
be held against each other. It reads the file as it stands and checks no more than Tape does: the
header's length against the file's, and each element where its iterator comes to it.
"""
import sys

HEADER = 16


class Refused(Exception):
    pass


class QueueFile:
    def __init__(self, data):
        self.data = data
        if len(data) < HEADER:
            raise Refused("no header")
        self.length, self.count, self.first, self.last = (self.number(data[i : i + 4]) for i in range(0, HEADER, 4))
        if self.length > len(data):
            raise Refused(f"truncated: the header says {self.length} bytes")
        if self.length <= HEADER:
            raise Refused(f"corrupt: the header says {self.length} bytes")

    @staticmethod
    def number(four):
        return int.from_bytes(four, "big", signed=True)

    def wrap(self, position):
        return position if position < self.length else HEADER + position - self.length

    def ring_read(self, position, count):
        position = self.wrap(position)
        if position < 0 or count < 0:
            raise Refused(f"corrupt: {count} bytes at {position}")
        if position + count <= self.length:
            return self.data[position : position + count]
        front = self.length - position
        back = count - front
        if front < 0 or HEADER + back > self.length:
            raise Refused(f"corrupt: {count} bytes at {position}")
        return self.data[position : self.length] + self.data[HEADER : HEADER + back]

    def records(self):
        position = self.first
        for _ in range(self.count):
            size = self.number(self.ring_read(position, 4))
            yield self.ring_read(position + 4, size)
            position = self.wrap(position + 4 + size)


def main(files):
    for file in files:
        try:
            with open(file, "rb") as card:
                records = list(QueueFile(card.read()).records())
        except Refused as why:
            print(f"{file}: refused, {why}")
            continue
        print(f"{file}: {len(records)}", *(record.hex() for record in records))


if __name__ == "__main__":
    main(sys.argv[1:])
