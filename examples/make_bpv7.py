#!/usr/bin/env python3
"""Makes bpv7.cborseq, bundles (RFC 9171) as a CBOR Sequence, and bpv7.report, what 'cddlseq validate bpv7.cddl
bpv7.cborseq' has to print for it; and bpv7_broken.*, in which a bundle has a flag that RFC 9171 reserves.

The reports are worked out here from the bundles, not by the program.
"""
from sequences import Tag, encoded, write

# flags of bundles (section 4.2.3) and of blocks (section 4.2.4), by their bits
ADMINISTRATIVE, WHOLE, WITH_TIMES, RECEPTION, DELIVERY = 1 << 1, 1 << 2, 1 << 6, 1 << 14, 1 << 17
RESERVED = 1 << 7
REPLICATED, REPORTED, REMOVED = 1 << 0, 1 << 1, 1 << 4
PREVIOUS_NODE, AGE, HOPS = 6, 7, 10
NOWHERE, GATEWAY, SENSOR = [1, 0], [1, "//gateway/telemetry"], [2, [17, 3]]
# milliseconds since 2000
MADE = [812_345_678_901, 0]


def primary(flags, source, report_to):
    return [7, flags, 0, GATEWAY, source, report_to, MADE, 3_600_000]


def payload(data):
    return [1, 1, 0, 0, data]


def extension(code, number, flags, data):
    return [code, number, flags, 0, encoded(data)]


def reading():
    """A bundle that may not be split, of which the gateway is to report that it came and that it was delivered."""
    return [
        primary(WHOLE | WITH_TIMES | RECEPTION | DELIVERY, SENSOR, SENSOR),
        extension(HOPS, 2, REPORTED, [30, 0]),
        extension(AGE, 3, REPLICATED | REMOVED, 1500),
        payload(encoded({"t": 21.5, "u": "Cel"})),
    ]


def report():
    """What the gateway reports of it."""
    times = [[True, MADE[0] + 40], [False], [True, MADE[0] + 41], [False]]
    return [primary(ADMINISTRATIVE, GATEWAY, NOWHERE), payload(encoded([1, [times, 0, SENSOR, MADE]]))]


def forwarded(flags):
    return [primary(flags, SENSOR, NOWHERE), extension(PREVIOUS_NODE, 2, REMOVED, GATEWAY), payload(b"")]


def main():
    write("bpv7", [reading(), report(), Tag(55799, forwarded(WHOLE))])
    write("bpv7_broken", [reading(), forwarded(WHOLE | RESERVED)], 1, f"$[0][1]: {WHOLE | RESERVED}")


main()
