"""Decodes each item of a file with cbor2, and prints how many there are."""
import sys

import cbor2

with open(sys.argv[1], "rb") as file:
    decoder, count = cbor2.CBORDecoder(file), 0
    try:
        while True:
            decoder.decode()
            count += 1
    except EOFError:
        print(count)
