#!/usr/bin/env python3
"""Writes first inputs for a fuzzer.

usage: tests/fuzz/seeds.py shell|c FOLDER
"""

import sys
from itertools import product
from pathlib import Path

sys.path.insert(0, str(Path(__file__).resolve().parents[1]))
from texts import CLASSES

# The ASCII characters of each class.
TEXTS = [text for members in CLASSES.values() if (text := "".join(filter(str.isascii, members[:20])).encode())]
# 0xFE ends a field; bytes from 0x80 stand for texts. For shell:
TABLES = [b"\x93\x92\x94\x90\x91", b"\x92-i|--input FILE  read\n\x95[SOURCE]", b"\x96\x97[--a-b]\n[-x [Y]]..\n",
          b"-a\n--bc D\nSRC\n[DEST]\n", b"\x93# text\n  [-q]!  say \x9c\nFILE.."]
ARGUMENTS = [b"\xad\xfex\xfe\xa6\xfey", b"\xaf\x9c\xfe-L\xfe\x9d\xfe\x9e", b"\x90\xfe\x98", b"-a\xfe--bc=\xa2\xfea\xfeb",
             b"-q\xfe\xa6", b"-vvLx\xfe-L\xfe\x99\x9a\xfe-cred\xfe\xa0", *TEXTS]
# For c:
ROWS = [
    b"\x06v\xfeverbose\xfe\xff\xfesay more\xfe",
    b"\x01o\xfeoutput\xfeFILE\xfewrite to FILE, or wrap this long description into rows, as it has to be\xfe",
    b"\x02c\xfecolor\xfeWHEN\xfe\xc3\xa9\xfe",
    b"\x07\xff\xfedir\xfeDIR\xfe\xfe",
    b"\x04i\xfeinput\xfeN\xfe\xfe",
    b"\x00h\xfe\xff\xfe\xff\xfe\xff\xfe",
]
WORDS = [b"-av\xfe--output=7\xfex\xfe--\xfe-v", b"-b\xfe5\xfe-c\xfered\xfe--dir=a\xfe--dir\xfeb", b"--input\xfe1\xfe\xe9",
         b"--dir=\xff\x80\xfe-b-3\xfey", b"-e\xfe9999999999999999999", b"-v\xfe\xff", b"--color\xfe--color=", *TEXTS]


def seeds(target):
    if target == "shell":
        modes = [0, 4, 8, 12, 20, 36, 64, 96, 129, 140]
        for number, (mode, table, line) in enumerate(product(modes, TABLES, ARGUMENTS)):
            yield bytes([mode, number % 64]) + b"p_\xfe" + table + b"\xfe" + line
    else:
        tables = [ROWS[:4], ROWS[1:5], ROWS[2:], ROWS[:2] * 2, ROWS[:3] + [b"\xf1" + ROWS[0][1:]]]
        for number, (mode, rows, line) in enumerate(product([0, 1, 2, 4, 8, 12, 15], tables, WORDS)):
            yield bytes([mode, 10 + number % 40, 60, len(rows)]) + b"".join(rows) + b"Usage\xfenope\xfe" + line


if sys.argv[1:] in (["--help"], ["-h"]):
    print(__doc__.strip())
    sys.exit()
if len(sys.argv) != 3 or sys.argv[1] not in ("shell", "c"):
    print("usage: tests/fuzz/seeds.py shell|c FOLDER", file=sys.stderr)
    sys.exit(2)
for place, seed in enumerate(seeds(sys.argv[1])):
    (Path(sys.argv[2]) / f"seed{place:03}").write_bytes(seed)
