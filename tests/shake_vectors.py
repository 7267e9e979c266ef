#!/usr/bin/env python3
"""Writes crates/shake_test/data/shake.bin: what SHAKE256 gives for each case of the program shake_test, in its order.

The values come from Python's hashlib, which is OpenSSL's code, and the two examples of FIPS 202 are held to the
first bytes that NIST publishes. With --check nothing is written: the file is compared.
"""
import hashlib
import pathlib
import sys

LENGTHS = [0, 1, 7, 8, 135, 136, 137, 271, 272, 273, 5000]
CUTS = 9
FILE = pathlib.Path(__file__).resolve().parent.parent / "crates" / "shake_test" / "data" / "shake.bin"

# https://csrc.nist.gov/projects/cryptographic-standards-and-guidelines/example-values, SHAKE256 with 0 and 1600 bits
PUBLISHED = {
    b"": "46b9dd2b0ba88d13233b3feb743eeb243fcd52ea62b81b82b50c27646ed5762fd75dc4ddd8c0f200cb05019d67b592f6fc821c49479ab48640292eacb3b7c4be",
    b"\xa3" * 200: "cd8a920ed141aa0407a22d59288652e9d9f1a7ee0c1e7c1ca699424da84a904d2d700caae7396ece96604440577da4f3aa22aeb8857f961c4cd8e06f0ae6610b",
}


def shake256(message, length):
    return hashlib.shake_256(message).digest(length)


def message(length):
    return bytes((7 * (i % 256) + i // 256 + 3) % 256 for i in range(length))


def vectors():
    for text, start in PUBLISHED.items():
        output = shake256(text, 512)
        if not output.startswith(bytes.fromhex(start)):
            sys.exit("shake_vectors: hashlib does not give the published example")
        yield output
    for m in LENGTHS:
        for n in LENGTHS:
            yield shake256(message(m), n)
    for m in LENGTHS:
        for _ in range(CUTS):
            yield shake256(message(m), 200)


def main():
    made = b"".join(vectors())
    if sys.argv[1:] == ["--check"]:
        if FILE.read_bytes() != made:
            sys.exit(f"shake_vectors: {FILE} differs")
    elif sys.argv[1:]:
        sys.exit(__doc__)
    else:
        FILE.parent.mkdir(parents=True, exist_ok=True)
        FILE.write_bytes(made)
    print(f"{FILE.name}: {len(made)} bytes")


main()
