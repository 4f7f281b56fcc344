"""What all tables have in common: their bytes, and how these come from a file and go to one."""
import collections.abc
import ctypes
import mmap
import operator
import os
import typing

from . import _exports as exports
from ._files import replace
from ._library import library

REASONS = {
    exports.ERROR_SHORT: "it is too short",
    exports.ERROR_MARK: "it is of another kind",
    exports.ERROR_VERSION: "it is of another version",
    exports.ERROR_PART: "part {} is missing, or isn't where the head says",
    exports.ERROR_ROW: "row {} is out of order, or its link is wrong",
    exports.ERROR_CELL: "cell {} is wrong",
    exports.ERROR_SPAN: "span {} is out of order, or its answer is wrong",
}


K = typing.TypeVar("K")
Pairs = typing.Union[typing.Mapping[K, int], typing.Iterable[typing.Tuple[K, int]]]


class ImageError(ValueError):
    """Bytes are no image: `str` tells why."""


class _Closed:
    """Stands in a table's class for what `close` takes out of the table."""

    def __get__(self, table, owner):
        if table is not None:
            raise ValueError("the table is closed")
        return self


class Table:
    """An image: bytes that stay in one place as long as this is open.

    A file is mapped. To replace one that others read, write another and rename it: `write` does so.
    """

    _check = None  # the export that checks an image
    _image = _len = _at = _Closed()
    _own = None  # where the user's own bytes are, once that was asked

    def __init__(self, image, check: bool = True):
        """A table over bytes, or over other memory that isn't written to meanwhile: a bytearray, or a file that is
        mapped. With `check` false nothing is read first: each call is as safe, but what is answered of bytes that are
        no image means nothing."""
        view = memoryview(image).cast("B")
        self._image, self._len = view.toreadonly(), len(view)
        # Each call is passed what holds the memory, so it lives until the call ends, whoever closes the table.
        self._at = place_of(view)
        place = ctypes.c_size_t()
        code = self._check(self._at, self._len, place) if check else 0
        if code:
            raise ImageError("this is no image: " + REASONS[code].format(place.value))

    @classmethod
    def open(cls, path, check: bool = True):
        """A table over a file, which is mapped until the table is closed."""
        with open(path, "rb") as file:
            if os.fstat(file.fileno()).st_size == 0:
                raise ImageError("this is no image: " + REASONS[exports.ERROR_SHORT])
            return cls(mmap.mmap(file.fileno(), 0, access=mmap.ACCESS_READ), check)

    @classmethod
    def write(cls, path, *items, **words) -> None:
        """Builds an image, as `build` does, and puts it where a file is or will be, in one step: who reads the old
        one goes on reading that. The new one has its group and its mode. Raises OSError where that fails, and where
        `path` is a link, a folder, a device or a pipe, or the file has several names, is another user's or may not be
        written by its owner; then all is as before."""
        replace(path, cls.build(*items, **words))

    def close(self) -> None:
        """Lets go of the bytes: a file is unmapped when the calls that read it have ended, and nobody has its
        `payload`."""
        for name in ("_image", "_len", "_at"):
            vars(self).pop(name, None)

    def __enter__(self):
        return self

    def __exit__(self, *_) -> None:
        self.close()

    @property
    def payload(self) -> memoryview:
        """The user's own bytes in the image, which aren't copied: `bytes(table.payload[start:end])` copies some."""
        if self._own is None:
            span = exports.Span()
            library.nifazombi_payload(self._at, self._len, span)
            self._own = slice(span.first, span.first + span.count)
        return self._image[self._own]

    def _climb(self, found, above, item):
        """The items from one up, by its index and one more."""
        while found:
            yield item(found - 1)
            found = above(self._at, self._len, found - 1)


class Items(collections.abc.Sequence):
    """Some items of a table that stand one behind the other, of which none is read before it is asked for."""

    def __init__(self, item, indices):
        self._item, self._indices = item, indices

    def __len__(self):
        return len(self._indices)

    def __getitem__(self, index):
        found = self._indices[index]
        return Items(self._item, found) if isinstance(index, slice) else self._item(found)

    def __iter__(self):
        return map(self._item, self._indices)

    def __reversed__(self):
        return map(self._item, reversed(self._indices))


class _Buffer(ctypes.Structure):
    """Py_buffer of Python's C interface."""

    _fields_ = [("buf", ctypes.c_void_p), ("obj", ctypes.c_void_p), ("len", ctypes.c_ssize_t),
                ("itemsize", ctypes.c_ssize_t), ("readonly", ctypes.c_int), ("ndim", ctypes.c_int),
                ("format", ctypes.c_void_p), ("shape", ctypes.c_void_p), ("strides", ctypes.c_void_p),
                ("suboffsets", ctypes.c_void_p), ("internal", ctypes.c_void_p)]


def place_of(view):
    """The address of memory, which may be read-only, with a view that holds it there: nobody else has the view."""
    buffer = _Buffer()
    ctypes.pythonapi.PyObject_GetBuffer(ctypes.py_object(view), ctypes.byref(buffer), 0)
    place = ctypes.c_void_p(buffer.buf)
    ctypes.pythonapi.PyBuffer_Release(ctypes.byref(buffer))
    place.held = view
    return place


def items_of(item, span):
    return Items(item, range(span.first, span.first + span.count))


def pairs_of(items):
    return items.items() if isinstance(items, collections.abc.Mapping) else items


def number_of(key, value, bits):
    """The value of a key as a number of so many bits."""
    number = operator.index(value)
    if number >> bits:
        raise ValueError(f"the value of {_shown(key)} doesn't fit into {bits} bits")
    return number


def built(len_of, write, rows, pairs, payload, is_at_most=False):
    """The image of pairs in order, of which these are the rows, and of the user's own bytes. It takes as many bytes as
    `len_of` says, or where that is the most that it may take, as many as `write` tells."""
    own = memoryview(payload).tobytes()
    image, place = bytearray(len_of(len(own))), ctypes.c_size_t()
    code = write(rows, len(pairs), own, len(own), place_of(memoryview(image)), len(image), place)
    if code == exports.ERROR_OUT_OF_ORDER:
        raise ValueError(f"{_shown(pairs[place.value][0])} is there twice")
    if code:
        raise ValueError("there are too many rows, or too many bytes of keys")
    return bytes(memoryview(image)[: place.value if is_at_most else len(image)])


def _shown(key):
    return repr(key) if isinstance(key, bytes) else str(key)
