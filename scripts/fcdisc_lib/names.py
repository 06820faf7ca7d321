# SPDX-License-Identifier: MIT
"""Names on a disc and names on the host, both ways.

A name on a disc is 1 to 255 bytes of at least 32, in the letters of Latin 1; `.` stands between the names of a path. fcore spells
what isn't plain as `%XX`. On the host a file's name carries its type, or its load and exec words, after a comma: `Prog,ffb`,
`Code,00008000-00008000`; `/` and `.` change places, and what a host can't have is `%XX`. Every name has one name on the host, and
`disc_name` finds it again.
"""
from __future__ import annotations

import os
import re
from functools import lru_cache
from typing import List, NamedTuple, Optional, Sequence, Tuple

LONGEST = 255
NO_NAME = "a name in a path has 1 to %d bytes" % LONGEST
NOT_PLAIN = b'$&%@\\^:.#*"|'  # fcore spells these as %XX
# `.` would become `/`, and `%` begins what is spelled; the others are refused by some hosts, and names are alike on all of them
NOT_ON_HOSTS = b'.%\\:*?"<>|\x7f' + bytes(range(0x80, 0xA0))
FOLDER_ITSELF = (b"/", b"//")  # they would become `.` and `..`
SUFFIX = re.compile(rb",(?:([0-9a-f]{3})|([0-9a-f]{1,8})-([0-9a-f]{1,8}))\Z", re.IGNORECASE)
SPELLED_BYTE = re.compile("%([0-9A-Fa-f]{2})")


# ---- as fcore spells them


def spelled_byte(byte: int) -> str:
    return chr(byte) if 33 <= byte <= 126 and byte not in NOT_PLAIN else "%%%02X" % byte


SPELLED = [spelled_byte(byte) for byte in range(256)]


def spelled(name: bytes) -> str:
    return name.decode("ascii") if name.isalnum() else "".join([SPELLED[byte] for byte in name])


def spelled_path(names: Sequence[bytes]) -> str:
    return ".".join(["$", *map(spelled, names)])


@lru_cache(maxsize=16)
def path_bytes(names: Tuple[bytes, ...]) -> bytes:
    """The path as a script has it. Several lines are often about one object."""
    return spelled_path(names).encode("ascii")


def read_spelled(text: str) -> bytes:
    """The name that fcore spelled."""
    if "%" in text:
        text = SPELLED_BYTE.sub(lambda found: chr(int(found[1], 16)), text)
    return text.encode("latin-1")


def folded(name: bytes) -> bytes:
    """Two names are one on a disc where these are equal: `a` to `z` count as `A` to `Z`, and no other letter does."""
    return name.upper()


def read_path(text: str) -> List[bytes]:
    """The names of a path as a person writes it: with `$.` before it or without, bytes as they are or as `%XX`.

    Raises ValueError with the reason where it can't be a path.
    """
    parts = text.split(".")
    if parts[0] == "$":
        del parts[0]
    return [read_name(part) for part in parts]


def host_text(text: str) -> str:
    """A word of the command line, which is UTF-8 whatever the host's letters are said to be. Other bytes stand for themselves."""
    return os.fsencode(text).decode("utf-8", "surrogateescape")


def plain_bytes(part: str) -> bytes:
    """The bytes of a part of a name, which may be written as `%XX`."""
    return latin_bytes(SPELLED_BYTE.sub(lambda found: chr(int(found[1], 16)), part) if "%" in part else part)


def read_name(part: str) -> bytes:
    name = plain_bytes(part)
    if not 1 <= len(name) <= LONGEST:
        raise ValueError(NO_NAME)
    if min(name) < 32:
        raise ValueError("a name has no control characters")
    return name


def latin_bytes(text: str) -> bytes:
    """The bytes of a text in Latin 1. A byte of the host that is no UTF-8 stands for itself."""
    try:
        return text.encode("latin-1")
    except UnicodeEncodeError:
        pass  # it has surrogates, or other letters
    codes = [ord(one) - 0xDC00 if 0xDC80 <= ord(one) <= 0xDCFF else ord(one) for one in text]
    if max(codes) > 255:
        raise ValueError("a disc's names have no letters but those of Latin 1")
    return bytes(codes)


# ---- on the host


def has_type(load: int) -> bool:
    """Whether the load word tells a file type and, with the exec word, a time."""
    return load >> 20 == 0xFFF


def type_of(load: int) -> Optional[int]:
    return load >> 8 & 0xFFF if has_type(load) else None


def suffix_of(load: int, execution: int) -> bytes:
    number = type_of(load)
    return b",%08x-%08x" % (load, execution) if number is None else b",%03x" % number


def host_part(byte: int) -> bytes:
    if byte in NOT_ON_HOSTS:
        return b"%%%02X" % byte
    return b"." if byte == ord("/") else chr(byte).encode("utf-8")


HOST_PARTS = [host_part(byte) for byte in range(256)]


def host_parts(name: bytes) -> List[bytes]:
    """What the host's name has for each byte of a disc's name."""
    parts = [HOST_PARTS[byte] for byte in name]
    looks_suffixed = SUFFIX.search(name) if b"," in name else None
    if looks_suffixed:
        parts[looks_suffixed.start()] = b"%2C"
    if name in FOLDER_ITSELF:
        parts[0] = b"%2F"
    return parts


def fitted_name(name: bytes, suffix: bytes, limit: int, number: int = 1) -> bytes:
    """A name for the host of at most `limit` bytes. `number` above 1 makes other names where the first is taken."""
    parts = host_parts(name)
    ending = suffix if number == 1 else b"~%d" % number + suffix
    excess = sum(map(len, parts)) + len(ending) - limit
    while excess > 0 and len(parts) > 1:
        excess -= len(parts.pop())
    return b"".join(parts) + ending


def host_name(name: bytes, suffix: bytes) -> bytes:
    """The name on the host. `suffix` is that of `suffix_of` for a file, and empty for a directory."""
    return b"".join(host_parts(name)) + suffix


class DiscName(NamedTuple):
    """What a host's name says of an object: its name on the disc, and a file's type or its load and exec words."""

    name: bytes
    file_type: Optional[int] = None
    words: Optional[Tuple[int, int]] = None


NAMELESS = DiscName(b"")


def disc_name(host: bytes, is_directory: bool) -> DiscName:
    """The other way of `host_name`. Raises ValueError where no disc can have such a name."""
    text, told = split_suffix(host, is_directory)
    return DiscName(read_name(text.replace(".", "/")), told.file_type, told.words)


def split_suffix(host: bytes, is_directory: bool) -> Tuple[str, DiscName]:
    """What stands before the type or the words, and these, without a name."""
    found = None if is_directory or b"," not in host else SUFFIX.search(host)
    text = (host[:found.start()] if found else host).decode("utf-8", "surrogateescape")
    if not found:
        return text, NAMELESS
    if found[1]:
        return text, DiscName(b"", file_type=int(found[1], 16))
    return text, DiscName(b"", words=(int(found[2], 16), int(found[3], 16)))


# ---- times

CENTISECONDS_BEFORE_1970 = 2208988800 * 100
NANOSECONDS = 10_000_000  # in a centisecond


def unix_time(load: int, execution: int) -> Optional[int]:
    """The time that load and exec words tell, in nanoseconds since 1970; they count centiseconds since 1900."""
    if not has_type(load):
        return None
    return (((load & 0xFF) << 32 | execution) - CENTISECONDS_BEFORE_1970) * NANOSECONDS


def words_for(file_type: int, time: int) -> Tuple[int, int]:
    """The load and exec words of a file of that type and time, in nanoseconds since 1970. A time that they can't tell becomes the
    nearest one."""
    centiseconds = min(max(time // NANOSECONDS + CENTISECONDS_BEFORE_1970, 0), (1 << 40) - 1)
    return 0xFFF00000 | file_type << 8 | centiseconds >> 32, centiseconds & 0xFFFFFFFF
