"""An ordered map of bytes to 64-bit numbers, on an adaptive radix tree that is proved correct.

The class :class:`ArtMap` has the manners of a dict. Its items are in the order of the keys. No stored
key is a prefix of another, so :meth:`ArtMap.longest_prefix` finds the one key that is a prefix of a
query.

    >>> from art_map import ArtMap
    >>> routes = ArtMap({b"/api/": 1, b"/static/": 2})
    >>> routes.longest_prefix(b"/api/users")
    (b'/api/', 1)
    >>> list(routes.items(prefix=b"/s"))
    [(b'/static/', 2)]

The shared library is looked for in the file that the environment variable ``ART_MAP_LIBRARY`` names,
then beside this file, then where the system finds libraries.
"""

from __future__ import annotations

import ctypes
import ctypes.util
import os
from collections.abc import Iterable, Iterator, Mapping, MutableMapping

__all__ = ["ArtMap", "ConflictError"]

_size = ctypes.c_size_t
_u64 = ctypes.c_uint64
_map = ctypes.c_void_p
_ADDED, _REPLACED, _CONFLICT, _NO_MEMORY = range(4)
_FOUND, _NONE, _TOO_SMALL = range(3)
_LIMIT = 1 << 64


class ConflictError(ValueError):
    """A key is a proper prefix of a stored key, or a stored key is a proper prefix of it."""


def _load() -> ctypes.CDLL:
    beside = os.path.join(os.path.dirname(os.path.abspath(__file__)), "libart_map.so")
    path = os.environ.get("ART_MAP_LIBRARY")
    if path is None and os.path.exists(beside):
        path = beside
    library = ctypes.CDLL(path or ctypes.util.find_library("art_map") or "libart_map.so")
    key = [ctypes.c_char_p, _size]
    number, length = ctypes.POINTER(_u64), ctypes.POINTER(_size)
    out = [ctypes.c_char_p, _size, length, number]
    page = [ctypes.c_char_p, _size, length, _size, number, _size, length]
    for name, result, arguments in (
        ("art_new", ctypes.c_uint32, [ctypes.POINTER(_map)]),
        ("art_free", None, [_map]),
        ("art_len", _size, [_map]),
        ("art_clear", None, [_map]),
        ("art_insert", ctypes.c_uint32, [_map, *key, _u64, number]),
        ("art_overwrite", ctypes.c_uint32, [_map, *key, _u64]),
        ("art_get", ctypes.c_bool, [_map, *key, number]),
        ("art_prefix_get", ctypes.c_bool, [_map, *key, length, number]),
        ("art_remove", ctypes.c_bool, [_map, *key, number]),
        ("art_remove_prefix", _size, [_map, *key]),
        ("art_first", ctypes.c_uint32, [_map, *out]),
        ("art_last", ctypes.c_uint32, [_map, *out]),
        ("art_next", ctypes.c_uint32, [_map, *key, *out]),
        ("art_prev", ctypes.c_uint32, [_map, *key, *out]),
        ("art_page", _size, [_map, *key, ctypes.c_bool, *page]),
        ("art_range_page", _size, [_map, *key, ctypes.c_bool, *key, ctypes.c_bool, *page]),
        ("art_prefix_page", _size, [_map, *key, *key, ctypes.c_bool, *page]),
    ):
        function = getattr(library, name)
        function.restype, function.argtypes = result, arguments
    return library


_library = _load()


def _bytes(key: object) -> bytes:
    if not isinstance(key, (bytes, bytearray, memoryview)):
        raise TypeError(f"a key is bytes, not {type(key).__name__}")
    return bytes(key)


def _number(value: object) -> int:
    if not isinstance(value, int):
        raise TypeError(f"a value is an int, not {type(value).__name__}")
    if not 0 <= value < _LIMIT:
        raise OverflowError("a value is from 0 to 2**64 - 1")
    return value


class ArtMap(MutableMapping[bytes, int]):
    """An ordered map of bytes to numbers from 0 to 2**64 - 1.

    It may be used as a context manager, which frees it at the end. A map that was freed raises
    ``ValueError``. A map is used by one thread at a time.
    """

    def __init__(self, items: Mapping[bytes, int] | Iterable[tuple[bytes, int]] = ()) -> None:
        """Makes a map of the pairs. Raises ``MemoryError`` and :class:`ConflictError`."""
        self._at = _map()
        self._value, self._len = _u64(), _size()
        if _library.art_new(ctypes.byref(self._at)) != _ADDED:
            raise MemoryError
        self.update(items)

    def close(self) -> None:
        """Frees the map. A second call does nothing."""
        at, self._at = self._at, _map()
        if at:
            _library.art_free(at)

    def __enter__(self) -> ArtMap:
        return self

    def __exit__(self, *exception: object) -> None:
        self.close()

    def __del__(self) -> None:
        if getattr(self, "_at", None):
            self.close()

    def _open(self) -> ctypes.c_void_p:
        if not self._at:
            raise ValueError("the map is closed")
        return self._at

    def __repr__(self) -> str:
        return f"ArtMap({dict(self.items())!r})" if self._at else "ArtMap(closed)"

    def __len__(self) -> int:
        return _library.art_len(self._open())

    def __contains__(self, key: object) -> bool:
        if not isinstance(key, (bytes, bytearray, memoryview)):
            return False
        key = bytes(key)
        return _library.art_get(self._open(), key, len(key), ctypes.byref(self._value))

    def __getitem__(self, key: bytes) -> int:
        key = _bytes(key)
        if not _library.art_get(self._open(), key, len(key), ctypes.byref(self._value)):
            raise KeyError(key)
        return self._value.value

    def __setitem__(self, key: bytes, value: int) -> None:
        """Gives the key the value. Raises :class:`ConflictError` and ``MemoryError``."""
        key = _bytes(key)
        code = _library.art_insert(
            self._open(), key, len(key), _number(value), ctypes.byref(self._value)
        )
        if code == _CONFLICT:
            raise ConflictError(f"{key!r} begins a stored key, or a stored key begins it")
        if code == _NO_MEMORY:
            raise MemoryError

    def __delitem__(self, key: bytes) -> None:
        key = _bytes(key)
        if not _library.art_remove(self._open(), key, len(key), ctypes.byref(self._value)):
            raise KeyError(key)

    def clear(self) -> None:
        """Removes all pairs."""
        _library.art_clear(self._open())

    def overwrite(self, key: bytes, value: int) -> None:
        """Gives the key the value, in place of all keys that begin with it and of its prefix."""
        key = _bytes(key)
        if _library.art_overwrite(self._open(), key, len(key), _number(value)) == _NO_MEMORY:
            raise MemoryError

    def remove_prefix(self, prefix: bytes) -> int:
        """Removes the keys that begin with the prefix, and returns how many there were."""
        prefix = _bytes(prefix)
        return _library.art_remove_prefix(self._open(), prefix, len(prefix))

    def longest_prefix(self, query: bytes) -> tuple[bytes, int] | None:
        """Returns the pair whose key is a prefix of the query, or ``None``. There is at most one."""
        query = _bytes(query)
        found = _library.art_prefix_get(
            self._open(), query, len(query), ctypes.byref(self._len), ctypes.byref(self._value)
        )
        return (query[: self._len.value], self._value.value) if found else None

    def _copied(self, name: str, *key: object) -> tuple[bytes, int] | None:
        room = 64
        while True:
            buffer = ctypes.create_string_buffer(room)
            code = getattr(_library, name)(
                self._open(), *key, buffer, room, ctypes.byref(self._len), ctypes.byref(self._value)
            )
            if code == _FOUND:
                return buffer.raw[: self._len.value], self._value.value
            if code == _NONE:
                return None
            room = self._len.value

    def first(self) -> tuple[bytes, int] | None:
        """Returns the first pair, or ``None`` if the map is empty."""
        return self._copied("art_first")

    def last(self) -> tuple[bytes, int] | None:
        """Returns the last pair, or ``None`` if the map is empty."""
        return self._copied("art_last")

    def after(self, key: bytes) -> tuple[bytes, int] | None:
        """Returns the first pair whose key is greater than this one, or ``None``."""
        key = _bytes(key)
        return self._copied("art_next", key, len(key))

    def before(self, key: bytes) -> tuple[bytes, int] | None:
        """Returns the last pair whose key is less than this one, or ``None``."""
        key = _bytes(key)
        return self._copied("art_prev", key, len(key))

    def popitem(self, last: bool = True) -> tuple[bytes, int]:
        """Removes the last pair, or the first one, and returns it."""
        pair = self.last() if last else self.first()
        if pair is None:
            raise KeyError("popitem(): the map is empty")
        del self[pair[0]]
        return pair

    def _pairs(self, call, low: bytes, skip: bool, count: int = 512) -> Iterator[tuple[bytes, int]]:
        room = 64 * count
        keys = ctypes.create_string_buffer(room)
        ends, values, needed = (_size * count)(), (_u64 * count)(), _size()
        while True:
            found = call(
                self._open(), low, len(low), skip,
                keys, room, ends, count, values, count, ctypes.byref(needed),
            )
            if found == 0:
                if needed.value == 0:
                    return
                room = needed.value
                keys = ctypes.create_string_buffer(room)
                continue
            page, start, pairs = keys.raw[: ends[found - 1]], 0, []
            for i in range(found):
                pairs.append((page[start : ends[i]], values[i]))
                start = ends[i]
            yield from pairs
            if needed.value == 0:
                return
            low, skip = pairs[-1][0], True

    def irange(
        self,
        minimum: bytes | None = None,
        maximum: bytes | None = None,
        inclusive: tuple[bool, bool] = (True, True),
    ) -> Iterator[tuple[bytes, int]]:
        """Iterates over the pairs from one key to another, in order. ``None`` is no bound.

        The map may change while it is iterated over: the iterator goes on from the last key that it
        read, and returns what it read of a page even if the pair was removed since.
        """
        low, skip = (b"", False) if minimum is None else (_bytes(minimum), not inclusive[0])
        if maximum is None:
            return self._pairs(_library.art_page, low, skip)
        high, with_high = _bytes(maximum), bool(inclusive[1])

        def call(at, from_, from_len, skip, *buffers):
            return _library.art_range_page(
                at, from_, from_len, skip, high, len(high), with_high, *buffers
            )

        return self._pairs(call, low, skip)

    def pairs(self, prefix: bytes = b"") -> Iterator[tuple[bytes, int]]:
        """Iterates over the pairs whose keys begin with the prefix, in order."""
        prefix = _bytes(prefix)
        if not prefix:
            return self._pairs(_library.art_page, b"", False)

        def call(at, from_, from_len, skip, *buffers):
            return _library.art_prefix_page(
                at, prefix, len(prefix), from_, from_len, skip, *buffers
            )

        return self._pairs(call, b"", False)

    def __iter__(self) -> Iterator[bytes]:
        return (key for key, _ in self.pairs())

    def keys(self, prefix: bytes = b"") -> Iterator[bytes]:
        """Iterates over the keys that begin with the prefix, in order."""
        return (key for key, _ in self.pairs(prefix))

    def values(self, prefix: bytes = b"") -> Iterator[int]:
        """Iterates over the values of the keys that begin with the prefix, in order of the keys."""
        return (value for _, value in self.pairs(prefix))

    def items(self, prefix: bytes = b"") -> Iterator[tuple[bytes, int]]:
        """Iterates over the pairs whose keys begin with the prefix, in order."""
        return self.pairs(prefix)

    def __eq__(self, other: object) -> bool:
        if not isinstance(other, Mapping):
            return NotImplemented
        return dict(self.items()) == dict(other.items())

    __hash__ = None
