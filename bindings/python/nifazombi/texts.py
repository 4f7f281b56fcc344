"""Maps from texts to numbers, in the order of the texts' bytes."""
import collections.abc
import itertools
import operator
import struct
import typing

from . import _exports as exports
from ._library import library
from ._table import Items, Pairs, Table, built, items_of, number_of, pairs_of, place_of

Key = typing.Union[str, bytes]
Pair = typing.Tuple[bytes, int]
# Of C's struct: where a key is, its length and its value.
PAIR = struct.Struct("PNQ")


def _bytes_of(key):
    # A number is no key, and `bytes` would make so many zeros of it.
    return key.encode() if isinstance(key, str) else key if type(key) is bytes else memoryview(key).tobytes()


class Texts(Table, collections.abc.Mapping):
    """A map from byte strings to numbers. A key is bytes, or a text, which stands for its UTF-8; keys come out as bytes.

    What begins with a prefix, and what is a prefix of a text, is found as fast as the text itself.
    """

    _check = library.nifazombi_texts_check

    @classmethod
    def build(cls, items: Pairs[Key], payload=b"") -> bytes:
        """An image of pairs of a key and a value, or of a mapping, in any order, and of bytes of one's own. Raises
        ValueError where a key comes twice."""
        each = sorted(((_bytes_of(key), value) for key, value in pairs_of(items)), key=lambda it: it[0])
        keys = b"".join(key for key, _ in each)
        first = place_of(memoryview(keys)).value
        places = itertools.accumulate((len(key) for key, _ in each), initial=first)
        rows = b"".join(PAIR.pack(at, len(key), number_of(key, value, 64)) for at, (key, value) in zip(places, each))
        return built(lambda own: library.nifazombi_texts_image_len(rows, len(each), own), library.nifazombi_texts_write,
                     rows, each, payload)

    def __len__(self) -> int:
        return library.nifazombi_texts_len(self._at, self._len)

    def nth(self, index: int) -> Pair:
        """The pair at an index, in order."""
        index, place = operator.index(index), exports.TextsPlace()
        # ctypes passes the lowest 64 bits of any number.
        if not 0 <= index < 1 << 64 or not library.nifazombi_texts_pair_at(self._at, self._len, index, place):
            raise IndexError(index)
        return self._image[place.first : place.first + place.len].tobytes(), place.value

    def _found(self, call, key):
        key = _bytes_of(key)
        return call(self._at, self._len, key, len(key))

    def __getitem__(self, key: Key) -> int:
        found = self._found(library.nifazombi_texts_get, key)
        if not found:
            raise KeyError(key)
        return self.nth(found - 1)[1]

    def __contains__(self, key) -> bool:
        return bool(self._found(library.nifazombi_texts_get, key))

    def __iter__(self) -> typing.Iterator[bytes]:
        return (key for key, _ in self.items())

    def nearest(self, key: Key) -> typing.Optional[Pair]:
        """The longest stored key that is a prefix of a text, and its value, or None."""
        found = self._found(library.nifazombi_texts_nearest, key)
        return self.nth(found - 1) if found else None

    def prefixes(self, key: Key) -> typing.Iterator[Pair]:
        """The pairs whose keys are prefixes of a text, from the longest up."""
        return self._climb(self._found(library.nifazombi_texts_nearest, key), library.nifazombi_texts_above, self.nth)

    def rank(self, key: Key) -> int:
        """How many keys come before a text: the index where it is, or would be."""
        return self._found(library.nifazombi_texts_rank, key)

    def items(self, prefix: Key = b"") -> Items:
        """The pairs whose keys begin with a prefix, in order."""
        prefix, span = _bytes_of(prefix), exports.Span()
        library.nifazombi_texts_below(self._at, self._len, prefix, len(prefix), span)
        return items_of(self.nth, span)

    def between(self, start: Key, end: Key) -> Items:
        """The pairs whose keys are `start` or come behind it, and come before `end`, in order."""
        start, end, span = _bytes_of(start), _bytes_of(end), exports.Span()
        library.nifazombi_texts_between(self._at, self._len, start, len(start), end, len(end), span)
        return items_of(self.nth, span)
