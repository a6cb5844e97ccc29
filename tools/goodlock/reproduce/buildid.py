"""Distinguishes two builds of a file: by the build-id that the linker has written into it, or else by a checksum of its bytes."""
import hashlib
import struct
from typing import BinaryIO, Optional

HEADER = struct.Struct("<16sHHIQQQIHHH")  # of an ELF file of 64 bits, up to the number of its program headers
SEGMENT = struct.Struct("<IIQQQQQQ")
NOTE = struct.Struct("<III")
PT_NOTE, BUILD_ID, MOST_SEGMENTS, MOST_NOTES, LONGEST = 4, 3, 200, 1 << 16, 32
CHUNK = 1 << 20


def build_id_of(path: str) -> str:
    """Returns the build-id of a file in hexadecimal, or `sha256:` and the checksum of its bytes if it has none. Raises `OSError`."""
    with open(path, "rb") as file:
        return linked_id(file) or checksum(file)


def checksum(file: BinaryIO) -> str:
    digest = hashlib.sha256()
    file.seek(0)
    while chunk := file.read(CHUNK):
        digest.update(chunk)
    return f"sha256:{digest.hexdigest()}"


def linked_id(file: BinaryIO) -> Optional[str]:
    """Returns the build-id of an ELF file, or None if it has none or is another file."""
    head = file.read(HEADER.size)
    if len(head) < HEADER.size or head[:6] != b"\x7fELF\x02\x01":
        return None
    _, _, _, _, _, segments_at, _, _, _, size, count = HEADER.unpack(head)
    if size != SEGMENT.size or count > MOST_SEGMENTS:
        return None
    file.seek(segments_at)
    table = file.read(size * count)
    for at in range(0, len(table) - SEGMENT.size + 1, SEGMENT.size):
        kind, _, offset, _, _, length, _, _ = SEGMENT.unpack_from(table, at)
        if kind == PT_NOTE and 0 < length <= MOST_NOTES:
            file.seek(offset)
            if found := id_in(file.read(length)):
                return found
    return None


def id_in(notes: bytes) -> Optional[str]:
    """Returns the build-id among the notes of a segment."""
    at = 0
    while at + NOTE.size <= len(notes):
        name_size, size, kind = NOTE.unpack_from(notes, at)
        name_at = at + NOTE.size
        text_at = name_at + (name_size + 3 & ~3)
        at = text_at + (size + 3 & ~3)
        if kind == BUILD_ID and notes[name_at:name_at + name_size] == b"GNU\0" and 0 < size <= LONGEST and text_at + size <= len(notes):
            return notes[text_at:text_at + size].hex()
    return None


def is_elf(path: str) -> bool:
    """Whether a file is a program or a library, and no script."""
    try:
        with open(path, "rb") as file:
            return file.read(4) == b"\x7fELF"
    except OSError:
        return False
