"""An image of version 1 of raw code, and of raw data where it is given:

    python3 examples/raw_image.py CODE OUT [DATA]

The code stands at 0x10000 and runs from its first word on, the data stands at 0x10000000. GNU's assembler
writes the barriers with other register fields than the instruction table here; their words are changed.
"""
import struct
import sys

BARRIERS = {0x60000000: 0x63FF0000, 0x60000400: 0x63FF0400, 0x60004000: 0x63FF4000, 0x60004400: 0x63FF4400}

if len(sys.argv) not in (3, 4):
    sys.exit(__doc__)
code = open(sys.argv[1], "rb").read()
if len(code) % 4:
    sys.exit(f"{sys.argv[1]} has {len(code)} bytes, which are no whole words")
data = open(sys.argv[3], "rb").read() if len(sys.argv) > 3 else b""
words = [BARRIERS.get(word, word) for (word,) in struct.iter_unpack("<I", code)]
head = struct.pack("<8sQQQIIII", b"ALPHAIM1", 0x10000, 0x10000000, 0x10000, len(words), len(data), 0, 65536)
with open(sys.argv[2], "wb") as out:
    out.write(head + struct.pack(f"<{len(words)}I", *words) + data)
