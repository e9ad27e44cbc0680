#!/usr/bin/env python3
"""Makes senml.cborseq, packs of sensor measurements (RFC 8428) as a CBOR Sequence, and senml.report, what
'cddlseq validate senml.cddl senml.cborseq' has to print for it; and senml_broken.*, in which a record has two values.

The reports are worked out here from the packs, not by the program.
"""
from sequences import Tag, write

BN, BT, BU, BVER, N, U, V, VS, VB, S, T, UT, VD = -2, -3, -4, -1, 0, 1, 2, 3, 4, 5, 6, 7, 8

PACKS = [
    [  # RFC 8428, section 5.1.2
        {BN: "urn:dev:ow:10e2073a0108006:", BT: 1.276020076001e+09, BU: "A", BVER: 5, N: "voltage", U: "V", V: 120.1},
        {N: "current", T: -5, V: 1.2},
        {N: "current", T: -4, V: 1.3},
        {N: "current", T: -3, V: 1.4},
        {N: "current", T: -2, V: 1.5},
        {N: "current", T: -1, V: 1.6},
        {N: "current", V: 1.7},
    ],
    [
        {BN: "urn:dev:mac:0024befffe804ff1/", N: "door", T: 1_790_000_000, VB: True},
        {N: "meter", U: "J", S: 61_250, UT: 600},
        {N: "level", U: "m", V: Tag(4, [-3, 1875])},
        {N: "label", VS: "open", "place": "hall"},
        {N: "frame", VD: bytes.fromhex("00ff10")},
    ],
]


def main():
    write("senml", PACKS)
    doubtful = [PACKS[1][0], {N: "label", VB: False, VS: "open"}]
    write("senml_broken", [PACKS[0], doubtful, PACKS[1]], 1, "$[1]<3>: 3")


main()
