#!/usr/bin/env python3
"""Makes images of 64 MiB for bench/check.sh: those of svfs, one of Minix with as many files and bytes, and a tree for ext2.

Usage: images.py FOLDER. The formats of svfs stand in docs/image.md, that of Minix in minix_fs.h of Linux.
"""
import os
import struct
import subprocess
import sys

BLOCK = 1024
BLOCKS = 65536
DIR, FILE = 0x41ED, 0x81A4


class Image:
    """An image of svfs, written block by block into memory."""

    def __init__(self, inodes):
        self.first = 2 + -(-inodes // 16)
        self.inodes = (self.first - 2) * 16
        self.bytes = bytearray(BLOCKS * BLOCK)
        self.next = self.first
        self.used = set()

    def take(self, data):
        """Puts up to a block of bytes into the next free block, and gives its number."""
        block = self.next
        self.next += 1
        assert block < BLOCKS, "the image is full"
        self.bytes[block * BLOCK:block * BLOCK + len(data)] = data
        return block

    def tree(self, data):
        """Puts the bytes of a file into blocks, and gives its thirteen addresses."""
        pages = [self.take(data[at:at + BLOCK]) for at in range(0, len(data), BLOCK)]
        addresses = pages[:10] + [0] * (10 - len(pages[:10]))
        rest = pages[10:]
        addresses.append(self.indirect(rest[:256]) if rest else 0)
        rest = rest[256:]
        groups = [self.indirect(rest[at:at + 256]) for at in range(0, len(rest[:65536]), 256)]
        addresses.append(self.indirect(groups) if groups else 0)
        assert len(rest) <= 65536
        addresses.append(0)
        return addresses

    def indirect(self, numbers):
        return self.take(b"".join(struct.pack("<I", n) for n in numbers))

    def inode(self, number, mode, links, data):
        addresses = b"".join(struct.pack("<I", a)[:3] for a in self.tree(data))
        at = 2 * BLOCK + 64 * (number - 1)
        self.bytes[at:at + 51] = struct.pack("<HHHHI", mode, links, 0, 0, len(data)) + addresses
        self.used.add(number)

    def close(self, path):
        """Links the blocks that are left into the chain of free blocks, and writes the superblock and the image."""
        numbers = [0]
        for block in range(BLOCKS - 1, self.next - 1, -1):
            if len(numbers) == 50:
                self.bytes[block * BLOCK:block * BLOCK + 204] = self.free_list(numbers)
                numbers = [block]
            else:
                numbers.append(block)
        cached = [n for n in range(3, self.inodes + 1) if n not in self.used][:100][::-1]
        head = b"SV5F" + struct.pack("<HHIHH", 2, self.first, BLOCKS, len(numbers), len(cached))
        head += b"".join(struct.pack("<I", n) for n in numbers).ljust(200, b"\0")
        head += b"".join(struct.pack("<H", n) for n in cached).ljust(200, b"\0")
        self.bytes[512:512 + len(head)] = head
        with open(path, "wb") as file:
            file.write(self.bytes)

    @staticmethod
    def free_list(numbers):
        return struct.pack("<HH", len(numbers), 0) + b"".join(struct.pack("<I", n) for n in numbers).ljust(200, b"\0")


def entry(number, name):
    return struct.pack("<H", number) + name.encode().ljust(14, b"\0")


def dots(number, above):
    return entry(number, ".") + entry(above, "..")


def fill(image, spell, root, directories, each, size):
    """Puts so many directories below the root, each with so many files of so many bytes, and gives the root's entries."""
    entries, number = spell(root, ".") + spell(root, ".."), root + 1
    for d in range(directories):
        here, names = number, spell(number, ".") + spell(root, "..")
        number += 1
        for f in range(each):
            image.inode(number, FILE, 1, bytes([f % 251 + 1]) * size)
            names += spell(number, f"f{f}")
            number += 1
        image.inode(here, DIR, 2, names)
        entries += spell(here, f"d{d}")
    return entries


def files(path, directories, each, size):
    """So many directories in the root, each with so many files of so many bytes."""
    image = Image(1 + directories * (each + 1) + 1)
    image.inode(2, DIR, 2 + directories, fill(image, entry, 2, directories, each, size))
    image.close(path)


def wide(path, entries):
    """One directory with so many entries, a thousand for each file."""
    image = Image(2 + -(-entries // 1000))
    root = [dots(2, 2)]
    for k in range(entries):
        root.append(entry(3 + k // 1000, f"n{k}"))
    for n in range(-(-entries // 1000)):
        image.inode(3 + n, FILE, min(1000, entries - 1000 * n), b"")
    image.inode(2, DIR, 2, b"".join(root))
    image.close(path)


def deep(path, levels):
    """So many directories, each in the one before."""
    image = Image(2 + levels)
    for k in range(levels + 1):
        above = 2 if k == 0 else k + 1
        below = b"" if k == levels else entry(k + 3, "d")
        image.inode(k + 2, DIR, 2 if k == levels else 3, dots(k + 2, above) + below)
    image.close(path)


def named(path):
    """One file that a thousand entries name."""
    image = Image(3)
    image.inode(3, FILE, 1000, b"x" * 100000)
    image.inode(2, DIR, 2, dots(2, 2) + b"".join(entry(3, f"n{k}") for k in range(1000)))
    image.close(path)


def empty(path):
    """The root alone: a chain of over 60,000 free blocks."""
    image = Image(32)
    image.inode(2, DIR, 2, dots(2, 2))
    image.close(path)


class Minix:
    """An image of Minix, version 2, that mkfs.minix made and this fills."""

    def __init__(self, path, inodes):
        with open(path, "wb") as file:
            file.truncate(BLOCKS * BLOCK)
        subprocess.run(["mkfs.minix", "-2", "-n", "30", "-i", str(inodes), path], check=True, stdout=subprocess.DEVNULL)
        with open(path, "rb") as file:
            self.bytes = bytearray(file.read())
        head = struct.unpack_from("<HHHHHHIHHI", self.bytes, BLOCK)
        self.imap, self.zmap, self.first = head[2], head[3], head[4]
        self.next = self.first + 1
        self.path = path

    def mark(self, block, bit):
        self.bytes[block * BLOCK + bit // 8] |= 1 << bit % 8

    def take(self, data):
        zone = self.next
        self.next += 1
        self.mark(2 + self.imap, zone - self.first + 1)
        self.bytes[zone * BLOCK:zone * BLOCK + len(data)] = data
        return zone

    def inode(self, number, mode, links, data, first=None):
        """Puts a file of at most 263 pages; its first page may have a zone already."""
        zones = [] if first is None else [first]
        zones += [self.take(data[at:at + BLOCK]) for at in range(len(zones) * BLOCK, len(data), BLOCK)]
        rest = zones[7:]
        zones = (zones[:7] + [0] * 7)[:7]
        zones += [self.take(b"".join(struct.pack("<I", z) for z in rest)) if rest else 0, 0, 0]
        at = (2 + self.imap + self.zmap) * BLOCK + 64 * (number - 1)
        self.bytes[at:at + 64] = struct.pack("<HHHHIIII10I", mode, links, 0, 0, len(data), 0, 0, 0, *zones)
        self.mark(2, number)

    def close(self):
        with open(self.path, "wb") as file:
            file.write(self.bytes)


def minix_entry(number, name):
    return struct.pack("<H", number) + name.encode().ljust(30, b"\0")


def minix(path, directories, each, size):
    image = Minix(path, 2 + directories * (each + 1))
    root = fill(image, minix_entry, 1, directories, each, size)
    image.bytes[image.first * BLOCK:(image.first + 1) * BLOCK] = root[:BLOCK].ljust(BLOCK, b"\0")
    image.inode(1, DIR, 2 + directories, root, first=image.first)
    image.close()


def ext2(folder, path, directories, each, size):
    tree = os.path.join(folder, "tree")
    for d in range(directories):
        os.makedirs(os.path.join(tree, f"d{d}"))
        for f in range(each):
            with open(os.path.join(tree, f"d{d}", f"f{f}"), "wb") as file:
                file.write(bytes([f % 251 + 1]) * size)
    count = str(12 + directories * (each + 1) + 100)
    subprocess.run(["mke2fs", "-q", "-t", "ext2", "-b", str(BLOCK), "-I", "128", "-N", count, "-m", "0", "-d", tree, path, str(BLOCKS)],
                   check=True, stdout=subprocess.DEVNULL, stderr=subprocess.DEVNULL)


def main():
    folder = sys.argv[1]
    at = lambda name: os.path.join(folder, name)
    shape = (200, 90, 2500)
    files(at("files"), *shape)
    wide(at("wide"), 1000000)
    deep(at("deep"), 30000)
    named(at("named"))
    empty(at("empty"))
    minix(at("files.minix"), *shape)
    ext2(folder, at("files.ext2"), *shape)
    with open(at("files"), "rb") as file:
        broken = bytearray(file.read())
    broken[512] = 0
    with open(at("unread"), "wb") as file:
        file.write(broken)


main()
