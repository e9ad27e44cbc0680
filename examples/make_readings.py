#!/usr/bin/env python3
"""Makes readings.cborseq, a day of readings of a counter as a CBOR Sequence, and readings.report, what
'cddlseq validate readings.cddl readings.cborseq' has to print for it.

The counter is a 64-bit count of octets that passed a link, read once a minute from midnight on. The link wakes up
slowly: what passes in a minute doubles every 40 minutes, up to some 5 Gbit/s. So the readings go through every width
that the head of an integer can have. The report is worked out here from the numbers, not by the program.
"""
import os

MINUTES = 24 * 60


def readings():
    count = 0
    for minute in range(MINUTES):
        yield count
        rate = 1 << minute // 40
        count += rate + rate * (minute * 7919 % 101) // 400


def encoded(number):
    """An unsigned integer with the shortest head (RFC 8949, sections 3 and 4.1)."""
    if number < 24:
        return bytes([number])
    for info, width in (24, 1), (25, 2), (26, 4), (27, 8):
        if number < 1 << 8 * width:
            return bytes([info]) + number.to_bytes(width, "big")
    raise ValueError(number)


def main():
    stream, report = b"", ""
    for count, number in enumerate(readings(), 1):
        report += f"item {count} at {len(stream)}: {number}\n"
        stream += encoded(number)
    report += f"clean: {MINUTES} items, {len(stream)} bytes\n"
    folder = os.path.dirname(os.path.abspath(__file__))
    with open(os.path.join(folder, "readings.cborseq"), "wb") as file:
        file.write(stream)
    with open(os.path.join(folder, "readings.report"), "w", newline="\n") as file:
        file.write(report)


main()
