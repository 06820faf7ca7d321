# SPDX-License-Identifier: MIT
"""Files that are no image of a FileCore disc as it is: what they are, and where in them a disc begins."""
from __future__ import annotations

from typing import BinaryIO, Iterator, List, NamedTuple, Optional, Tuple

from .description import BLOCK, BOOT_BLOCK, D_UNITS, boot_record, is_old_map, number, zone_record
from .images import read_at, size_of

HEAD = 2048
NEAR, FAR = 4 << 20, 1 << 20  # bytes: a disc is looked for at each sector up to NEAR, then at multiples of FAR
SECTOR = 512
L_UNITS = 2560
IMAGE_ENDINGS = (".adf", ".adl", ".adm", ".ads", ".hdf", ".img", ".dat", ".dsk", ".ima", ".dd", ".bin")
DISC_SIZES = (163840, 327680, 655360, 819200, 1638400)


class Other(NamedTuple):
    """What a file is, and what to do with it. A disc that can't be read yet is a disc all the same."""

    what: str
    advice: str
    is_disc: bool = False


SIGNALS = "convert it to sectors first"
UNPACK = "unpack it first"
# How files begin
BEGINNINGS: Tuple[Tuple[bytes, Other], ...] = (
    (b"PK\x03\x04", Other("a zip archive", UNPACK)),
    (b"\x1f\x8b", Other("packed by gzip", "unpack it first, with gunzip")),
    (b"BZh", Other("packed by bzip2", "unpack it first, with bunzip2")),
    (b"\xfd7zXZ\x00", Other("packed by xz", "unpack it first, with unxz")),
    (b"7z\xbc\xaf\x27\x1c", Other("a 7z archive", UNPACK)),
    (b"Rar!", Other("a rar archive", UNPACK)),
    (b"HXCPICFE", Other("an HFE image, of a drive's signals", SIGNALS)),
    (b"HXCMFM", Other("an MFM image, of a drive's signals", SIGNALS)),
    (b"SCP", Other("an SCP image, of a drive's signals", SIGNALS)),
    (b"CAPS", Other("an IPF image, of a drive's signals", SIGNALS)),
    (b"IMD ", Other("an IMD image, with a header for each track", SIGNALS)),
    (b"TD\x00", Other("a TD0 image of Teledisk", SIGNALS)), (b"td\x00", Other("a TD0 image of Teledisk", SIGNALS)),
    (b"Formatted Disk Image", Other("an FDI image, of a drive's signals", SIGNALS)), (b"FDI", Other("an FDI image", SIGNALS)),
    (b"JFDI", Other("a JFD image", SIGNALS)),
)
DOS = Other("a DOS disc", "use mtools")
DFS = Other("a DFS disc of the BBC Micro", "use a program for DFS")
OLD_HARD_DISC = Other("a hard disc with an old map: not yet read", "use an emulator or a program that reads these", True)
TEXT = Other("a text", "look for an image elsewhere")


def recognised(file: BinaryIO, name: str) -> Optional[Other]:
    """What the file is, where it shows."""
    head = read_at(file, 0, HEAD)
    for start, other in BEGINNINGS:
        if head.startswith(start):
            return other
    if is_old_map(head) and number(head, 252, 3) > L_UNITS and number(head, 252, 3) != D_UNITS:
        return OLD_HARD_DISC
    if is_dos(head):
        return DOS
    if is_dfs(head) and (name.lower().endswith((".ssd", ".dsd")) or has_dfs_files(head)):
        return DFS
    if head and all(byte >= 32 or byte in b"\t\n\r\f\x1b" for byte in head):
        return TEXT
    return None


def is_dos(head: bytes) -> bool:
    """A boot sector with a jump and numbers that can be; or the words at its end."""
    return (head[:1] in (b"\xeb", b"\xe9") and number(head, 11, 2) in (512, 1024, 2048, 4096) and head[13] & head[13] - 1 == 0
            and 1 <= head[16] <= 2)


def is_dfs(head: bytes) -> bool:
    """Sector 1 has eight times the number of files, and the number of sectors."""
    return len(head) >= 512 and head[261] % 8 == 0 and number(bytes((head[263], head[262] & 3)), 0, 2) in (400, 800)


def has_dfs_files(head: bytes) -> bool:
    """Whether the catalogue has files, by plain names, each inside the disc and before the one that follows it there."""
    names, places = head[8:head[261] + 8], head[264:head[261] + 264]
    end = number(bytes((head[263], head[262] & 3)), 0, 2)
    for at in range(0, len(places), 8):
        size, start = number(places, at + 4, 2) | (places[at + 6] >> 4 & 3) << 16, places[at + 7] | (places[at + 6] & 3) << 8
        if start < 2 or start + (size + 255) // 256 > end or any(not 32 <= byte & 127 < 127 for byte in names[at:at + 8]):
            return False
        end = start if size else end
    return 0 < head[261] <= 248


def looks_like_image(file: BinaryIO, name: str) -> bool:
    """Whether the keeper will take it for a disc: by its name, or by its length."""
    return name.lower().endswith(IMAGE_ENDINGS) or size_of(file) in DISC_SIZES


# ---- a disc somewhere inside


def disc_offsets(file: BinaryIO) -> Iterator[int]:
    """Where in the file a disc may begin: fcore has to be asked. Byte 0 and a header of one sector are read as usual."""
    size = size_of(file)
    for at in places(file, size):
        head = read_at(file, at, 512)
        if len(head) < 512 or begins_later(file, at):
            continue
        if is_old_map(head) or boot_record(read_at(file, at + BOOT_BLOCK, BLOCK)) or any(
                zone_record(read_at(file, at + place, 1024)) for place in (0, 1024)):
            yield at


def begins_later(file: BinaryIO, at: int) -> bool:
    """Whether a disc of one zone begins 1024 bytes later: a map there would do as the second copy of one that begins here."""
    here, first, second = (zone_record(read_at(file, at + place, 1024)) for place in (0, 1024, 2048))
    return not here and bool(first) and bool(second)


def places(file: BinaryIO, size: int) -> Iterator[int]:
    """The partitions that a table names; each sector of the file's beginning; then large steps."""
    yield from partitions(read_at(file, 0, SECTOR), size)
    for at in (256, *range(2 * SECTOR, min(size, NEAR), SECTOR), *range(NEAR, size, FAR)):
        if may_begin(file, at):
            yield at


def partitions(sector: bytes, size: int) -> List[int]:
    if sector[510:] != b"\x55\xaa":
        return []
    starts = [number(sector, at + 8, 4) * SECTOR for at in range(446, 510, 16)]
    return [start for start in starts if 0 < start < size]


def may_begin(file: BinaryIO, at: int) -> bool:
    """A quick look, before checks are computed: a record in a boot block or in a zone, or the length of an old map's disc."""
    head = read_at(file, at, HEAD)
    block = read_at(file, at + BOOT_BLOCK + 0x1C0, 16)
    if len(block) == 16 and 8 <= block[0] <= 10 and block[0] + 3 <= block[4] <= 19 and 5 <= block[5] <= 20:
        return True
    if any(len(head) > start + 20 and head[start + 3] == 0xFF and head[start + 4] == 10 for start in (0, 1024)):
        return True
    return len(head) >= 512 and head[510] % 3 == 0 and head[510] <= 246 and number(head, 252, 3) * 256 in DISC_SIZES
