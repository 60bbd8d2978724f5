"""The calls of the C library, and how its memory is shown to it and to numpy."""

import numpy

from ._calls import ffi, lib

__version__ = ffi.string(lib.KULDEBIQ_VERSION_TEXT).decode()
if lib.kuldebiq_version() != lib.KULDEBIQ_VERSION:
    raise ImportError("kuldebiq: the library and its header are of two versions")

WORD_MAX = (1 << 64) - 1
# What the names of calls end with, by the bytes of a key.
_ENDINGS = {8: "", 4: "32"}


def new_handle(kind, free):
    """A handle that holds nothing, and whose contents are freed with it."""
    return ffi.gc(ffi.new(kind), free)


def record_of(kind):
    """The dtype of a structure of whole numbers."""
    fields = dict(ffi.typeof(kind).fields)
    return numpy.dtype(
        {
            "names": list(fields),
            "formats": [field.type.cname[: -len("_t")] for field in fields.values()],
            "offsets": [field.offset for field in fields.values()],
            "itemsize": ffi.sizeof(kind),
        }
    )


def call_for(keys, name):
    """The call of this name for an array of keys of 64 or 32 bits."""
    return getattr(lib, name + _ENDINGS[keys.itemsize])


def words_at(row):
    """The place in memory of an array of unsigned numbers, which it keeps."""
    return ffi.from_buffer(f"uint{8 * row.itemsize}_t[]", row)
