#!/usr/bin/env python3
"""Writes a PPM picture as a PNG, each pixel as a square: png.py IN.ppm OUT.png [SIDE]"""
import struct, sys, zlib

data = open(sys.argv[1], "rb").read()
side = int(sys.argv[3]) if len(sys.argv) > 3 else 4
magic, size, greatest, pixels = data.split(b"\n", 3)
width, height = map(int, size.split())
assert magic == b"P6" and greatest == b"255" and len(pixels) == 3 * width * height

rows = b""
for y in range(height):
    row = pixels[3 * width * y : 3 * width * (y + 1)]
    wide = b"".join(row[3 * x : 3 * x + 3] * side for x in range(width))
    rows += (b"\0" + wide) * side


def chunk(kind, body):
    return struct.pack(">I", len(body)) + kind + body + struct.pack(">I", zlib.crc32(kind + body))


head = struct.pack(">IIBBBBB", width * side, height * side, 8, 2, 0, 0, 0)
with open(sys.argv[2], "wb") as out:
    out.write(b"\x89PNG\r\n\x1a\n" + chunk(b"IHDR", head) + chunk(b"IDAT", zlib.compress(rows, 9)) + chunk(b"IEND", b""))
