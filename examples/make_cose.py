#!/usr/bin/env python3
"""Makes cose_sign1.cborseq, messages with one signature (RFC 9052), and cwt.cborseq, claims of CBOR Web Tokens
(RFC 8392), each as a CBOR Sequence; their reports, which are what 'cddlseq validate cose_sign1.cddl cose_sign1.cborseq'
and the like have to print; and of each the same with one wrong byte and its report: cose_sign1_broken.* and
cwt_broken.*. In cose_sign1_protected.* the protected headers of a message have a label twice. cwt_signed.* and
cwt_signed_broken.* are the claims in messages with a signature, for 'cddlseq validate --root token cwt.cddl'.

The reports are worked out here from the messages, not by the program. What the RFCs show is compared with their bytes.
"""
from sequences import Tag, encoded, spelled, write

CLAIMS = spelled(  # RFC 8392, appendix A.1
    {
        1: "coap://as.example.com", 2: "erikw", 3: "coap://light.example.com", 4: 1444064944, 5: 1443944944, 6: 1443944944,
        7: bytes.fromhex("0b71"),
    },
    "a70175636f61703a2f2f61732e6578616d706c652e636f6d02656572696b77037818636f61703a2f2f6c696768742e6578616d706c652e636f6d"
    "041a5612aeb0051a5610d9f0061a5610d9f007420b71")
TOKENS = [
    CLAIMS,
    spelled({6: 1443944944.5}, "a106fb41d584367c200000"),  # appendix A.7
    {1: "coap://as.example.com", 8: {1: {1: 4, -1: bytes(range(32))}}, "scope": "read", -65537: [1, 2]},
]
MESSAGES = [
    spelled(  # RFC 9052, appendix C.2.1
        Tag(18, [bytes.fromhex("a10126"), {4: b"11"}, b"This is the content.", bytes.fromhex(
            "8eb33e4ca31d1c465ab05aac34cc6b23d58fef5c083106c4d25a91aef0b0117e"
            "2af9a291aa32e14ab834dc56ed2a223444547e01f11d3b0916e5a4c345cacb36")]),
        "d28443a10126a10442313154546869732069732074686520636f6e74656e742e5840"
        "8eb33e4ca31d1c465ab05aac34cc6b23d58fef5c083106c4d25a91aef0b0117e"
        "2af9a291aa32e14ab834dc56ed2a223444547e01f11d3b0916e5a4c345cacb36"),
    spelled(  # RFC 8392, appendix A.3
        Tag(18, [bytes.fromhex("a10126"), {4: b"AsymmetricECDSA256"}, encoded(CLAIMS), bytes.fromhex(
            "5427c1ff28d23fbad1f29c4c7c6a555e601d6fa29f9179bc3d7438bacaca5acd"
            "08c8d4d4f96131680c429a01f85951ecee743a52b9b63632c57209120e1c9e30")]),
        "d28443a10126a104524173796d6d657472696345434453413235365850" + encoded(CLAIMS).hex() + "5840"
        "5427c1ff28d23fbad1f29c4c7c6a555e601d6fa29f9179bc3d7438bacaca5acd"
        "08c8d4d4f96131680c429a01f85951ecee743a52b9b63632c57209120e1c9e30"),
    [b"", {1: -7, 2: [3, "note"], 3: "text/plain", 6: b"\x01\x02", "note": [None, 1]}, None, bytes(range(64))],
]


PROTECTED = encoded({1: -7})
TWICE = bytes.fromhex("a201260127")  # {1: -7, 1: -8}


def signed(claims):
    return [PROTECTED, {4: b"key 1"}, encoded(claims), bytes(range(64))]


SIGNED = [MESSAGES[1], Tag(61, Tag(18, signed(TOKENS[1]))), signed(TOKENS[2])]


def main():
    write("cose_sign1", MESSAGES)
    # the key identifier of the second message: a text in place of a byte string
    write("cose_sign1_broken", MESSAGES, 1, '$()[1]{4}: "AsymmetricECDSA256"', (8, 0x52, 0x72))
    message = Tag(18, [TWICE] + MESSAGES[0].content[1:])
    write("cose_sign1_protected", [MESSAGES[1], message, MESSAGES[2]], 1, f"$()[0]: h'{TWICE.hex()}'")
    write("cwt", TOKENS)
    # when the second token was issued: a byte string in place of a float
    write("cwt_broken", TOKENS, 1, "${6}: h'41d584367c200000'", (2, 0xfb, 0x48))
    write("cwt_signed", SIGNED)
    # the same in a message: what is wrong in a byte string is told of the whole string
    payload = encoded(TOKENS[1]).replace(b"\xfb", b"\x48")
    at = encoded(SIGNED[1]).index(b"\xfb")
    write("cwt_signed_broken", SIGNED, 1, f"$()()[2]: h'{payload.hex()}'", (at, 0xfb, 0x48))


main()
