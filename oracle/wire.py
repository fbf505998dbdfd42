"""The bytes of protocol buffers, version 3: varints, fields and frames, written and read."""
from __future__ import annotations

import struct
from collections.abc import Iterable, Iterator

LARGEST = 2_097_152  # bytes of a message
VARINT, LENGTH = 0, 2  # the types of fields that messages have
Value = int | bytes


class Malformed(Exception):
    """Bytes that are no message."""


class CutShort(Malformed):
    """The bytes end inside a field."""


class TooLong(Malformed):
    """A varint has more than ten bytes."""


def varint(value: int) -> bytes:
    """A number as a varint, a negative one by its 64 bits."""
    value %= 2**64
    out = bytearray()
    while value >= 128:
        out.append(value % 128 + 128)
        value //= 128
    out.append(value)
    return bytes(out)


def number(field_number: int, value: int) -> bytes:
    """A field of a number, also if it is zero."""
    return varint(field_number * 8 + VARINT) + varint(value)


def scalar(field_number: int, value: int) -> bytes:
    """A field of a number or a flag, which is left out if it is zero."""
    return number(field_number, int(value)) if value else b""


def field(field_number: int, value: str | bytes) -> bytes:
    """A field of bytes, a text or a message."""
    value = value.encode() if isinstance(value, str) else value
    return varint(field_number * 8 + LENGTH) + varint(len(value)) + value


def text(field_number: int, value: str | bytes) -> bytes:
    """A field of a text, which is left out if it is empty."""
    return field(field_number, value) if value else b""


def frame(message: bytes) -> bytes:
    """A message after its length."""
    return struct.pack(">I", len(message)) + message


def read_varint(message: bytes, at: int) -> tuple[int, int]:
    """The number of the varint at an offset, and the offset after it."""
    value = 0
    for count in range(10):
        if at + count >= len(message):
            raise CutShort("a varint is cut short")
        byte = message[at + count]
        value |= (byte & 127) << 7 * count
        if byte < 128:
            return value % 2**64, at + count + 1
    raise TooLong("a varint is too long")


def fields(message: bytes) -> list[tuple[int, Value]]:
    """The fields of a message: pairs of a field's number, and an integer or bytes."""
    at, found = 0, []
    value: Value
    while at < len(message):
        key, at = read_varint(message, at)
        if key % 8 == VARINT:
            value, at = read_varint(message, at)
        elif key % 8 == LENGTH:
            length, at = read_varint(message, at)
            value, at = message[at : at + length], at + length
            if at > len(message):
                raise CutShort("a field is cut short")
        else:
            raise Malformed(f"a field of the type {key % 8}")
        found.append((key // 8, value))
    return found


def number_in(found: Iterable[tuple[int, Value]], field_number: int) -> int:
    """The number of the first field of this number, or 0."""
    value = one(found, field_number, 0)
    if not isinstance(value, int):
        raise Malformed(f"field {field_number} is no number")
    return value


def bytes_in(found: Iterable[tuple[int, Value]], field_number: int) -> bytes:
    """The bytes of the first field of this number, or none."""
    value = one(found, field_number, b"")
    if not isinstance(value, bytes):
        raise Malformed(f"field {field_number} has no bytes")
    return value


def one(found: Iterable[tuple[int, Value]], field_number: int, default: Value | None) -> Value | None:
    """The value of the first field of this number."""
    return next((value for key, value in found if key == field_number), default)


def signed(value: int, bits: int = 64) -> int:
    """The number that the low bits are in two's complement."""
    value %= 2**bits
    return value - 2**bits if value >= 2 ** (bits - 1) else value


class Frames:
    """Cuts bytes into messages."""

    def __init__(self) -> None:
        """Nothing was fed."""
        self.rest = b""

    def feed(self, piece: bytes) -> list[bytes]:
        """The messages that are whole with this piece."""
        self.rest += piece
        return list(self.whole())

    def whole(self) -> Iterator[bytes]:
        """Takes the messages off the front that are there to their end."""
        at = 0
        while len(self.rest) - at >= 4:
            end = at + 4 + int.from_bytes(self.rest[at : at + 4], "big")
            if len(self.rest) < end:
                break
            yield self.rest[at + 4 : end]
            at = end
        self.rest = self.rest[at:]

    def length(self) -> int:
        """The length that the next message has by its frame, 0 if that isn't there yet."""
        return int.from_bytes(self.rest[:4], "big") if len(self.rest) >= 4 else 0
