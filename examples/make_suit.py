#!/usr/bin/env python3
"""Makes suit.cborseq, manifests for the update of software (draft-ietf-suit-manifest) as a CBOR Sequence, and
suit.report, what 'cddlseq validate suit.cddl suit.cborseq' has to print for it; and suit_broken.*, in which a command
that was moved out of the manifest has a reporting policy that does not exist.

The reports are worked out here from the manifests, not by the program. The digests are right, and the signatures and
the authentication code are any bytes.
"""
import hashlib
import uuid

from sequences import Tag, encoded, write

VENDOR = uuid.uuid5(uuid.NAMESPACE_DNS, "vendor.example")
CLASS = uuid.uuid5(VENDOR, "sensor")
# labels of parameters, conditions and directives
VENDOR_ID, CLASS_ID, IMAGE, SLOT, SIZE, URI, SOURCE = 1, 2, 3, 5, 14, 21, 22
SET_INDEX, TRY_EACH, SET, FETCH, COPY, INVOKE, SWAP, RUN = 12, 15, 20, 21, 22, 23, 31, 32
REPORT, REPORT_FAILURE = 15, 2
FIRMWARE, APPLICATION = bytes(range(256)) * 4, b"\x7fELF" + bytes(28)


def digest(content):
    """A SUIT_Digest by SHA-256."""
    return [-16, hashlib.sha256(content).digest()]


def image(content):
    """The parameters of a component that is to have this content."""
    return {VENDOR_ID: VENDOR.bytes, CLASS_ID: CLASS.bytes, IMAGE: encoded(digest(content)), SIZE: len(content)}


def common(components, *commands):
    return encoded({2: components, 4: encoded([*commands, VENDOR_ID, REPORT, CLASS_ID, REPORT])})


def envelope(manifest, block, more):
    """A manifest in its envelope. The digest is that of the whole byte string, its head too."""
    wrapper = [encoded(digest(encoded(encoded(manifest)))), encoded(block)]
    return Tag(107, {2: encoded(wrapper), 3: encoded(manifest), **more})


def signature():
    return Tag(18, [encoded({1: -7}), {}, None, bytes(range(64))])


def code():
    return Tag(17, [encoded({1: 5}), {4: b"key 1"}, None, bytes(range(32))])


def start():
    """A device that tests its image and starts it."""
    return envelope({
        1: 1, 2: 0, 3: common([[b"\0"]], SET, image(FIRMWARE)),
        7: encoded([IMAGE, REPORT]), 9: encoded([INVOKE, REPORT_FAILURE]),
    }, signature(), {})


def update(policy):
    """A device that fetches an image first: how it does so, and texts for people, are moved into the envelope."""
    install = encoded([SET, {URI: "coaps://updates.example/image"}, FETCH, policy, IMAGE, REPORT])
    texts = encoded({"en": {1: "Firmware 2", (b"\0",): {1: "Vendor", 6: "2.0.1"}}})
    return envelope({
        1: 1, 2: 1, 3: common([[b"\0"]], SET, image(FIRMWARE)), 4: "https://updates.example/manifest",
        7: encoded([IMAGE, REPORT]), 9: encoded([INVOKE, REPORT_FAILURE]),
        20: digest(encoded(install)), 23: digest(encoded(texts)),
    }, signature(), {20: install, 23: texts})


def slots():
    """A device with two slots for its image, and an application that comes in the envelope."""
    choice = [encoded([SET, {SLOT: slot, SIZE: 1024 + slot}, SLOT, 5]) for slot in (0, 1)]
    copy = encoded([SET, {SOURCE: 1}, COPY, REPORT_FAILURE, IMAGE, REPORT])
    components = [[b"\0"], [b"\1", b"app"]]
    return envelope({
        1: 1, 2: 2, 3: common(components, SET_INDEX, True, SET, image(APPLICATION), TRY_EACH, [*choice, None]),
        8: encoded([SET_INDEX, [0, 1], RUN, copy, SWAP, 0, -1, "lamp on"]),
        16: encoded([SET_INDEX, 1, SET, {URI: "#app"}, FETCH, REPORT_FAILURE]),
    }, code(), {"#app": APPLICATION})


def main():
    write("suit", [start(), update(REPORT_FAILURE), slots()])
    # the envelope has the member 20 for that sequence alone, and its key then belongs nowhere
    write("suit_broken", [start(), update(16), slots()], 1, "$()<20>: 20")


main()
