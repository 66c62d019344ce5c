"""The client of Nested STAR: one report of one client, by the proved library over ctypes.

    from star_client import Client

    client = Client()
    record = client.record(["Germany", "Berlin"], [20, 10], epoch=1)

A record is a report after its length; concatenated records are a stream, which `star_tool reveal` reads.
Each report has a seed of its own unless one is given. docs/CLIENTS.md of the repository says what a client must ensure.
"""
from __future__ import annotations

import ctypes
import operator
import os
import platform
import secrets
import sys
from collections.abc import Callable, Iterable, Sequence
from typing import Any, Optional, Union

from ._normal import TRIMMED, normalized

__all__ = ["BadExtra", "BadSeed", "BadThresholds", "BadValues", "BadVersion", "Bytes", "Client", "ClientError", "MAX_EXTRA", "MAX_LAYERS",
           "MAX_RECORD", "MAX_REPORT", "MAX_THRESHOLD", "MAX_VALUE", "SEED_BYTES", "TRIMMED", "library", "normalized"]

#: The bytes of a seed.
SEED_BYTES = 32
#: The most bytes of a value; it has one at least.
MAX_VALUE = 64
#: The most extra bytes of a report of version 2; one of version 1 has none.
MAX_EXTRA = 255
#: The most layers of a report, by its version.
MAX_LAYERS = {1: 8, 2: 16}
#: The greatest threshold, by the version; the least is 2 in both.
MAX_THRESHOLD = {1: 512, 2: 4096}
#: The most bytes of a report; in version 1 it has at most 1616.
MAX_REPORT = 3487
#: The most bytes of a record.
MAX_RECORD = 4 + MAX_REPORT

#: Bytes, or a text that is encoded as UTF-8.
Bytes = Union[bytes, bytearray, memoryview, str]


class ClientError(ValueError):
    """What is wrong with the arguments of a report. The text names the argument and its limit."""


class BadVersion(ClientError):
    """The version is neither 1 nor 2."""


class BadThresholds(ClientError):
    """Not 1 to 8 thresholds from 2 to 512, or in version 2 not 1 to 16 from 2 to 4096."""


class BadValues(ClientError):
    """Not one value of 1 to 64 bytes for each threshold."""


class BadExtra(ClientError):
    """More than 255 extra bytes, or any in version 1."""


class BadSeed(ClientError):
    """Not 32 bytes of seed."""


#: The class of each status of bindings/c/star_client.h.
FAULTS: dict[int, type[ClientError]] = {1: BadVersion, 2: BadThresholds, 3: BadValues, 4: BadExtra, 5: BadSeed}


def library() -> str:
    """The path of the library that `Client()` loads: the one in the wheel or, in a clone, the one for Linux on x86-64."""
    here = os.path.dirname(os.path.abspath(__file__))
    names = ["libstar_client.so", "libstar_client.dylib", "star_client.dll"]
    places = [os.path.join(here, name) for name in names]
    if sys.platform == "linux" and platform.machine() == "x86_64":
        places.append(os.path.normpath(os.path.join(here, "..", "..", "c", "lib", "x86_64-linux", "libstar_client.so")))
    for path in places:
        if os.path.exists(path):
            return path
    raise OSError("star_client's library isn't next to it: install the wheel (pip install bindings/python), or name a path: Client(path)")


class Client:
    """Makes reports with the library of this package, or with the one at the path. Threads may share a client."""

    def __init__(self, path: Union[str, os.PathLike[str], None] = None) -> None:
        made = ctypes.CDLL(library() if path is None else os.fspath(path))
        size, text, pointer = ctypes.c_size_t, ctypes.c_char_p, ctypes.c_void_p
        what = [ctypes.c_uint32, text, size, pointer, size, text, size]
        self._report = made.star_client_report
        self._report.argtypes = what + [ctypes.c_uint32, text, size, ctypes.c_uint32, pointer, size, ctypes.POINTER(size)]
        self._report.restype = ctypes.c_uint32
        self._length = made.star_client_length
        self._length.argtypes = what + [ctypes.POINTER(size)]
        self._length.restype = ctypes.c_uint32

    def record(self, values: Sequence[Bytes], thresholds: Sequence[int], epoch: int, *, version: int = 1, extra: Bytes = b"",
               seed: Optional[Bytes] = None, client: int = 0) -> bytes:
        """The report of the values after its length, as it is in a stream: concatenated records are a stream.

        values      one for each threshold, of 1 to 64 bytes; a text is encoded as UTF-8
        thresholds  from how many reports on the aggregator may learn that value: 1 to 8 numbers from 2 to 512,
                    in version 2 1 to 16 numbers from 2 to 4096
        epoch       from 0 to 4294967295: only reports of one epoch are counted together
        version     1 or 2
        extra       what the aggregator learns if it learns the last value: up to 255 bytes, none in version 1
        seed        32 bytes; without one it is drawn for this report alone, as a client should do
        client      from 0 to 4294967295; one seed and number make one report, ever

        An argument beyond its limit raises ClientError, one of another type TypeError; both name the argument.
        """
        report = self.report(values, thresholds, epoch, version=version, extra=extra, seed=seed, client=client)
        return len(report).to_bytes(4, "big") + report

    def report(self, values: Sequence[Bytes], thresholds: Sequence[int], epoch: int, *, version: int = 1, extra: Bytes = b"",
               seed: Optional[Bytes] = None, client: int = 0) -> bytes:
        """The bytes of the report alone. The arguments are those of `record`."""
        layers = _Layers(version, thresholds)
        epoch, client = _number("epoch", epoch, 32), _number("client", client, 32)
        cells, more = layers.cells(values), layers.extra(extra)
        drawn = secrets.token_bytes(SEED_BYTES) if seed is None else _bytes("seed", seed)
        if len(drawn) != SEED_BYTES:
            raise BadSeed("seed has %d bytes; it has to have %d" % (len(drawn), SEED_BYTES))
        out = ctypes.create_string_buffer(MAX_REPORT)
        written = self._make(layers, cells, more, epoch, drawn, client, out, 0)
        return ctypes.string_at(out, written)

    def records(self, rows: Iterable[Sequence[Bytes]], thresholds: Sequence[int], epoch: int, *, version: int = 1,
                extras: Optional[Iterable[Bytes]] = None, progress: Optional[Callable[[int], Any]] = None, every: int = 1000) -> bytes:
        """A stream: a record for each row of values, each with a seed of its own.

        extras      one for each row, if the reports have extra bytes (version 2)
        progress    is called with the number of records made, after each `every` of them and at the end

        A fault names its row, and then there is no stream.
        """
        layers = _Layers(version, thresholds)
        epoch, every = _number("epoch", epoch, 32), _whole("every", every)
        if every < 1:
            raise ClientError("every is %d; it is 1 or more" % every)
        out, made, count = ctypes.create_string_buffer(MAX_RECORD), [], 0
        others = None if extras is None else iter(extras)
        for values in rows:
            try:
                cells = layers.cells(values)
                more = b"" if others is None else layers.extra(_next_extra(others))
            except ClientError as fault:
                raise type(fault)("row %d: %s" % (count, fault)) from None
            except TypeError as fault:
                raise TypeError("row %d: %s" % (count, fault)) from None
            length = self._make(layers, cells, more, epoch, secrets.token_bytes(SEED_BYTES), 0, out, 4)
            out[0:4] = length.to_bytes(4, "big")
            made.append(ctypes.string_at(out, 4 + length))
            count += 1
            if progress is not None and count % every == 0:
                progress(count)
        if others is not None and next(others, None) is not None:
            raise BadExtra("extras has more items than there are rows, which are %d" % count)
        if progress is not None and count % every:
            progress(count)
        return b"".join(made)

    def length(self, values: Sequence[Bytes], thresholds: Sequence[int], *, version: int = 1, extra: Bytes = b"") -> int:
        """How many bytes that report has; its record has four more."""
        layers = _Layers(version, thresholds)
        cells, more = layers.cells(values), layers.extra(extra)
        length = ctypes.c_size_t()
        _raise(self._length(*layers.what(cells, more), ctypes.byref(length)))
        return length.value

    def _make(self, layers: "_Layers", cells: bytes, extra: bytes, epoch: int, seed: bytes, client: int, out: Any, at: int) -> int:
        written = ctypes.c_size_t()
        _raise(self._report(*layers.what(cells, extra), epoch, seed, len(seed), client, ctypes.byref(out, at), len(out) - at, ctypes.byref(written)))
        return written.value


class _Layers:
    """A version with thresholds that are valid in it, and what a report needs from them."""

    def __init__(self, version: int, thresholds: Sequence[int]) -> None:
        if isinstance(version, bool) or version not in (1, 2):
            raise BadVersion("version is %r; it is 1 or 2" % (version,))
        numbers = [_whole("thresholds[%d]" % i, k) for i, k in enumerate(_items("thresholds", thresholds))]
        most, greatest = MAX_LAYERS[version], MAX_THRESHOLD[version]
        if not 1 <= len(numbers) <= most:
            raise BadThresholds("thresholds has %d numbers; version %d has 1 to %d" % (len(numbers), version, most))
        for i, k in enumerate(numbers):
            if not 2 <= k <= greatest:
                raise BadThresholds("thresholds[%d] is %d; in version %d it is from 2 to %d" % (i, k, version, greatest))
        self.version, self.count = version, len(numbers)
        self.array = (ctypes.c_uint16 * len(numbers))(*numbers)

    def cells(self, values: Sequence[Bytes]) -> bytes:
        """Each value after a byte with its length."""
        texts = [_bytes("values[%d]" % i, value) for i, value in enumerate(_items("values", values))]
        if len(texts) != self.count:
            raise BadValues("values has %d items; thresholds has %d, and each needs one" % (len(texts), self.count))
        for i, text in enumerate(texts):
            if not 1 <= len(text) <= MAX_VALUE:
                raise BadValues("values[%d] has %d bytes; a value has 1 to %d" % (i, len(text), MAX_VALUE))
        return b"".join([bytes((len(text),)) + text for text in texts])

    def extra(self, extra: Bytes) -> bytes:
        text, most = _bytes("extra", extra), MAX_EXTRA if self.version == 2 else 0
        if len(text) > most:
            raise BadExtra("extra has %d bytes; version %d has %s" % (len(text), self.version, "none" if most == 0 else "at most %d" % most))
        return text

    def what(self, cells: bytes, extra: bytes) -> tuple[Any, ...]:
        return self.version, cells, len(cells), self.array, self.count, extra, len(extra)


def _items(name: str, items: Any) -> list[Any]:
    if isinstance(items, (str, bytes, bytearray, memoryview)):
        raise TypeError("%s is one %s; it is a list with an item for each layer" % (name, type(items).__name__))
    return list(items)


def _bytes(name: str, value: Any) -> bytes:
    if isinstance(value, str):
        try:
            return value.encode()
        except UnicodeEncodeError:
            raise BadValues("%s has half of a surrogate pair, which UTF-8 can't spell" % name) from None
    if isinstance(value, (bytes, bytearray, memoryview)):
        return bytes(value)
    raise TypeError("%s is %s; it is bytes, or a text" % (name, type(value).__name__))


def _next_extra(extras: Any) -> Any:
    for extra in extras:
        return extra
    raise BadExtra("extras has no item for this row")


def _whole(name: str, number: Any) -> int:
    if isinstance(number, bool) or not hasattr(type(number), "__index__"):
        raise TypeError("%s is %s; it is a whole number" % (name, type(number).__name__))
    return operator.index(number)


def _number(name: str, number: Any, bits: int) -> int:
    whole = _whole(name, number)
    if not 0 <= whole < 1 << bits:
        raise ClientError("%s is %d; it is from 0 to %d" % (name, whole, (1 << bits) - 1))
    return whole


def _raise(status: int) -> None:
    # The arguments were checked before, so only status 0 is possible.
    if status:
        raise FAULTS.get(status, ClientError)("the library's status is %d" % status)
