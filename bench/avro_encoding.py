"""Avro's binary encoding of longs and strings, for the scripts of this folder."""


def number(n):
    """A long of 64 bits, in its shortest spelling."""
    n = (n << 1) ^ (n >> 63)
    out = bytearray()
    while n > 127:
        out.append(n & 127 | 128)
        n >>= 7
    return bytes(out) + bytes([n])


def text(s):
    """A string: its length in bytes, and its UTF-8."""
    encoded = s.encode()
    return number(len(encoded)) + encoded
