#!/usr/bin/env python3
"""Writes a legal journal over an image that `svfs mkfs` made to standard output, for bench/replay.sh.

Usage: journals.py looks|writes|wide|promises|none. The first two have 100 MB. Their text stands in docs/journal.md.
"""
import sys

BYTES = 100 * 1000 * 1000

# One process makes file 3 in the root, opens it for writing as file 0, and at the end lets everything go.
HEAD = b"svj 1 1 100\n"
MADE = b"""1 promise enter 2 61 = granted 0
1 create 2 61 f 644 = made 3
1 forgo = done
1 open 3 w = opened 0
1 promise write 0 1024 = granted 1
1 write 0 %s = wrote 1024
1 forgo = done
""" % (b"5a" * 1024)
LOOKS = b"""1 stat 2 = is d 755 2 48
1 look 2 61 = found 3
1 stat 3 = is f 644 1 1024
1 drop 3 = kept
"""
WRITES = b"""1 seek 0 0 0 = at 0
1 promise write 0 1024 = granted 0
1 write 0 %s = wrote 1024
1 forgo = done
""" % (b"a5" * 1024)
# As many bytes as a file may have, for which there is no room.
PROMISES = b"1 promise write 0 2147482623 = nospace\n"
TAIL = b"1 close 0 = kept\n"
END = b"1 drop 2 = kept\n1 drop 2 = kept\n0 purge = done\n"


def made(k):
    """The lines that make the k-th file of the root, from 0. A page has 64 entries, and the eleventh an indirect block."""
    page, place = divmod(k + 2, 64)
    blocks = 0 if place else 2 if page == 10 else 1
    name = (b"f%d" % k).hex().encode()
    return b"""1 promise enter 2 %s = granted %d
1 create 2 %s f 644 = made %d
1 forgo = done
1 drop %d = kept
""" % (name, blocks, name, k + 3, k + 3)


def main():
    kind = sys.argv[1]
    out = sys.stdout.buffer
    out.write(HEAD)
    if kind == "wide":
        for k in range(4000):
            out.write(made(k))
    elif kind != "none":
        lines = {"looks": LOOKS, "writes": WRITES, "promises": PROMISES}[kind]
        out.write(MADE)
        for _ in range(100 if kind == "promises" else BYTES // len(lines)):
            out.write(lines)
        out.write(TAIL)
    out.write(END)


main()
