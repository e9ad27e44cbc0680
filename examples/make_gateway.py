#!/usr/bin/env python3
"""Makes gateway.cborseq, messages of a gateway as a CBOR Sequence, and gateway.report, what
'cddlseq validate gateway.cddl gateway.cborseq' has to print for it; and broken.cborseq and broken.report, the same with one
wrong code in the middle, after which nothing is looked at.

The reports are worked out here from the messages, not by the program.
"""
from sequences import Tag, write

START = 1_790_000_000


def messages():
    """A start of each device, then readings in turn, a failure now and then, and messages that were passed on."""
    devices = "roof", bytes([2, 0, 94, 16, 0, 1]), "cellar"
    for number, device in enumerate(devices):
        yield [Tag(1, START + number), device, 0] + [[2, number]] * (number < 2)
    for minute in range(60):
        device = devices[minute % 3]
        seconds = Tag(1, START + 60 * minute)
        samples = [part for k in range(minute % 4 + 1) for part in (15 * k, None if minute % 7 == k else minute - 20 + k)]
        yield [seconds, device, 1, minute % 3] + samples
        if minute % 10 == 9:
            yield [seconds, device, 2, 500 + minute, "no answer", "tried again"]
        if minute % 16 == 15:
            yield [seconds, "roof", 3, "hill", [Tag(1, START - minute), "mast", 2, 404]]


def main():
    whole = list(messages())
    cut = next(k for k, item in enumerate(whole) if item[2] == 2)
    write("gateway", whole)
    write("broken", whole[:cut] + [whole[cut][:3] + [600] + whole[cut][4:]] + whole[cut + 1:], cut, "$[3]: 600")


main()
