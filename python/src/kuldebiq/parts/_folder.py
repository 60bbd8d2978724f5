"""The folder of the parts: the names in it, how they are written, and what is checked of them."""

from __future__ import annotations

import json
import os
import re
import zlib
from pathlib import Path
from typing import NamedTuple
from uuid import uuid4

from .._codes import BITS
from .._errors import BadValue

FORMAT = 1
_LIST = "parts.json"
_FILE = re.compile(r"part-\d{5,}(?:-(\d+))?\.(?:keys|hints)")
_UNFINISHED = re.compile(r"\.(?:part-\d{5,}|parts).*\.tmp")


class Part(NamedTuple):
    """A part: its files, its first and last key, how many keys it has and how many are before it,
    how many lines its hints have, and a checksum of these."""

    keys: str
    hints: str
    first: int
    last: int
    count: int
    offset: int
    lines: int
    hints_crc32: int


def unfinished(path: Path) -> Path:
    """A name for a file that isn't whole yet."""
    return path.with_name(f".{path.name}.{uuid4().hex}.tmp")


def write_whole(path: Path, *pieces) -> None:
    """Write a file under another name and rename it when it is on the disk."""
    beside = unfinished(path)
    try:
        with open(beside, "wb") as file:
            for piece in pieces:
                file.write(piece)
            file.flush()
            os.fsync(file.fileno())
        os.replace(beside, path)
    except BaseException:
        beside.unlink(missing_ok=True)
        raise


def stem(number: int, generation: int) -> str:
    return f"part-{number:05}" + (f"-{generation}" if generation else "")


def new_generation(folder: Path) -> int:
    """The least number that is above those of all files here, so that no file is written over."""
    matches = (_FILE.fullmatch(name) for name in os.listdir(folder))
    return 1 + max((int(match.group(1) or 0) for match in matches if match), default=-1)


def clear(folder: Path, parts: list[Part]) -> None:
    """Remove what earlier calls have left: all files of parts that aren't these."""
    kept = {name for part in parts for name in (part.keys, part.hints)}
    for name in os.listdir(folder):
        if (_FILE.fullmatch(name) and name not in kept) or _UNFINISHED.fullmatch(name):
            (folder / name).unlink(missing_ok=True)


def _checksum(body: dict) -> int:
    return zlib.crc32(json.dumps(body, sort_keys=True, separators=(",", ":")).encode())


def save(folder: Path, epsilon: int, parts: list[Part], dims: int | None = None) -> None:
    """Write the list of the parts: from now on the folder has these. Of points, whose codes are the
    keys, it says how many coordinates they have."""
    body = {"format": FORMAT, "epsilon": epsilon, **({"dims": dims} if dims else {})}
    body["parts"] = [part._asdict() for part in parts]
    text = json.dumps({**body, "crc32": _checksum(body)}, indent=1)
    write_whole(folder / _LIST, text.encode(), b"\n")
    at = os.open(folder, os.O_RDONLY)
    try:
        os.fsync(at)
    finally:
        os.close(at)


def load(folder: Path) -> tuple[int, list[Part], int | None]:
    """ε, the parts, and how many coordinates their points have, if they have points, as the list
    says, which is checked against itself."""
    path = folder / _LIST
    content = path.read_bytes()
    try:
        body = json.loads(content)
        number = body["format"]
        is_newer = isinstance(number, int) and number > FORMAT
        if not is_newer:
            is_whole = body.pop("crc32") == _checksum(body)
            epsilon, parts = body["epsilon"], [Part(**part) for part in body["parts"]]
            dims, wrong = _dims_in(body), _first_wrong(parts)
    except (ValueError, KeyError, TypeError, AttributeError):
        raise BadValue(f"{str(path)!r} is damaged, or no list of parts") from None
    if is_newer:
        raise BadValue(f"{str(path)!r} is of format {number}, which is newer than this package's")
    if not is_whole:
        raise BadValue(f"{str(path)!r} is damaged: its checksum is another one")
    if wrong is not None:
        raise BadValue(f"the part {wrong!r} of {str(path)!r} isn't in order with the one before")
    return epsilon, parts, dims


def _dims_in(body: dict) -> int | None:
    """How many coordinates points have: the list says nothing of it if the keys aren't codes."""
    dims = body.get("dims")
    if dims is not None and (type(dims) is not int or dims not in BITS):
        raise ValueError
    return dims


def _first_wrong(parts: list[Part]) -> str | None:
    """The first part that isn't sorted at its ends, doesn't follow the one before it in keys and
    places, or has files of other names than parts have."""
    place, before = 0, 0
    for part in parts:
        is_named = _FILE.fullmatch(part.keys) and _FILE.fullmatch(part.hints)
        is_next = part.offset == place and before <= part.first <= part.last and part.count > 0
        if not (is_named and is_next):
            return part.keys
        place, before = place + part.count, part.last
    return None


def unreadable(path: str, error: OSError) -> BadValue:
    return BadValue(f"the part {path!r} can't be read: {error.strerror}")


def check_ends(folder: str | os.PathLike, part: Part) -> None:
    """Refuse a part whose file is missing or short, or has another count, first or last key."""
    path = os.path.join(folder, part.keys)
    try:
        with open(path, "rb") as file:
            size = os.fstat(file.fileno()).st_size
            ends = [
                int.from_bytes(os.pread(file.fileno(), 8, at), "little")
                for at in (0, 8, 8 * part.count)
            ]
    except OSError as error:
        raise unreadable(path, error) from None
    if size != 8 + 8 * part.count:
        raise BadValue(
            f"the part {path!r} has {size} bytes, and {part.count} keys take {8 + 8 * part.count}"
        )
    made = part.count, part.first, part.last
    for what, found, was in zip(("count", "first key", "last key"), ends, made):
        if found != was:
            raise BadValue(
                f"the part {path!r} isn't the one that was made: its {what} is {found}, and was"
                f" {was}"
            )
