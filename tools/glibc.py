"""Finds the glibc version that a program needs, from the symbol versions in its ELF file."""
from __future__ import annotations

import struct
from collections.abc import Iterator

import common

# the libraries of libc6
LIBRARIES = {"libc.so.6", "libm.so.6", "ld-linux-x86-64.so.2"}
NEEDS = 0x6FFFFFFE  # the kind of the section .gnu.version_r
# what a mark of the C library's own means
MARKS = {"GLIBC_ABI_DT_RELR": "GLIBC_2.36"}


def text_at(content: bytes, start: int) -> str:
    return content[start : content.index(b"\0", start)].decode()


def chained(content: bytes, start: int, count: int, form: str) -> Iterator[tuple[int, tuple[int, ...]]]:
    """Yields the offset and the fields of each record in a chain. The last field of a record is the distance to the
    next one."""
    for _ in range(count):
        fields = struct.unpack_from(form, content, start)
        yield start, fields
        start += fields[-1]


def needs(path: str) -> list[tuple[str, str]]:
    """Returns the symbol versions that an x86-64 program needs, each with the library that must provide it."""
    with open(path, "rb") as file:
        content = file.read()
    if content[:6] != b"\x7fELF\2\1":
        common.stop(f"{path} is no program for 64-bit Linux")
    (table,), (size, count) = struct.unpack_from("<Q", content, 0x28), struct.unpack_from("<HH", content, 0x3A)
    # (the kind of each section, its offset, the number of a related section, and a count)
    sections = [(it[1], it[4], it[6], it[7]) for it in (struct.unpack_from("<IIQQQQII", content, table + n * size) for n in range(count))]
    found = []
    for _, start, texts, records in (it for it in sections if it[0] == NEEDS):
        names = sections[texts][1]
        for at, (_, versions, library, first, _) in chained(content, start, records, "<HHIII"):
            for _, (_, _, _, name, _) in chained(content, at + first, versions, "<IHHII"):
                found.append((text_at(content, names + library), text_at(content, names + name)))
    return found


def needed(path: str) -> str:
    """Returns the lowest version of glibc that defines all symbols that a program needs."""
    found = needs(path)
    others = sorted({library for library, _ in found} - LIBRARIES)
    if others or not found:
        common.stop(f"{path} needs {', '.join(others) or 'no symbol of the C library'}: its package can't say which libc6 it depends on")
    known = [MARKS.get(version, version).replace("GLIBC_", "").split(".") for _, version in found]
    return ".".join(max(known, key=lambda it: [int(part) for part in it]))
