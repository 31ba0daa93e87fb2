"""The form of a file on disk: docs/IMAGE.md."""
from __future__ import annotations

import ctypes

import numpy as np

from .library import Growth, ImageHeader, Parameters

MAGIC = b"\x89HPL\r\n\x1a\n"
HEADER = ctypes.sizeof(ImageHeader)
BAD_LENGTH, BAD_MAGIC, BAD_VERSION, BAD_CRC, TORN = 1, 2, 3, 4, 6
PAGES_ONLY, OPEN = 1, 2
ROW = 256  # bytes of a row of crc32c


def _table() -> np.ndarray:
    table = np.arange(256, dtype=np.uint32)
    for _ in range(8):
        table = np.where(table & 1, (table >> 1) ^ np.uint32(0x82F63B78), table >> 1).astype(np.uint32)
    return table


TABLE = _table()
BYTE_BY_BYTE = TABLE.tolist()


def _skipping() -> list[list[int]]:
    """For each byte of a CRC, what a row of zeros makes of its values."""
    skipped = []
    for place in range(4):
        crc = np.arange(256, dtype=np.uint32) << np.uint32(8 * place)
        for _ in range(ROW):
            crc = TABLE[crc & 0xFF] ^ (crc >> np.uint32(8))
        skipped.append(crc.tolist())
    return skipped


SKIPPING = _skipping()


def crc32c(data: bytes, crc: int = 0) -> int:
    """CRC-32C (Castagnoli) of some bytes, going on from the CRC of those before them. A CRC is linear: the rows of all bytes are taken at
    once, each by itself, and then put together."""
    crc ^= 0xFFFFFFFF
    whole = len(data) // ROW
    rows = np.frombuffer(data, np.uint8, whole * ROW).reshape(whole, ROW)
    alone = np.zeros(whole, np.uint32)
    for column in range(ROW):
        alone = TABLE[(alone ^ rows[:, column]) & 0xFF] ^ (alone >> np.uint32(8))
    a, b, c, d = SKIPPING
    for row in alone.tolist():
        crc = row ^ a[crc & 0xFF] ^ b[crc >> 8 & 0xFF] ^ c[crc >> 16 & 0xFF] ^ d[crc >> 24]
    for byte in data[whole * ROW :]:
        crc = BYTE_BY_BYTE[(crc ^ byte) & 0xFF] ^ (crc >> 8)
    return crc ^ 0xFFFFFFFF


def length(parameters: Parameters, flags: int = 0) -> int:
    """The bytes of an image, 0 for parameters that no file has."""
    pages, places = parameters.pages, parameters.places
    if not (1 <= pages <= 1024 and 1 <= places <= 32):
        return 0
    return HEADER + 13 * pages * places + (0 if flags & PAGES_ONLY else pages)


def image(parameters: Parameters, growth: Growth, words: bytes, numbers: bytes, owners: bytes, separators: bytes) -> bytes:
    """An image of these buffers, of the lengths that the parameters ask for."""
    body = words + numbers + owners + separators
    header = ImageHeader((ctypes.c_uint8 * 8)(*MAGIC), 1, 0, parameters, growth, HEADER + len(body), 0, 0)
    header.crc = crc32c(body, crc32c(bytes(header)[: HEADER - 4]))
    return bytes(header) + body


def test(data: bytes) -> tuple[int, ImageHeader]:
    """Why the bytes are no image, 0 if they are one, and their header."""
    if len(data) < HEADER:
        return BAD_LENGTH, ImageHeader()
    header = ImageHeader.from_buffer_copy(data)
    if bytes(header.magic) != MAGIC:
        return BAD_MAGIC, header
    if header.version != 1 or header.flags > 3 or header.zero:
        return BAD_VERSION, header
    if header.length != len(data) or header.length != length(header.parameters, header.flags):
        return BAD_LENGTH, header
    covered = b"" if header.flags & OPEN else data[HEADER:]
    return (0 if crc32c(covered, crc32c(data[: HEADER - 4])) == header.crc else BAD_CRC), header
