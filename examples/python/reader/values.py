"""The values of tuples (docs/VALUES.md)."""
from __future__ import annotations

from .catalog import Field
from .layout import OutOfForm, require

INT_BYTES = 8

Value = int | str | None


def read_text(data: bytes) -> str:
    require(all(byte >= 32 and byte != 127 for byte in data))
    try:
        return data.decode()
    except UnicodeDecodeError:
        raise OutOfForm from None


def read_original(data: bytes, field: Field) -> tuple[Value, bytes]:
    """The value of a field without a mark, and the bytes after it."""
    if field.text is None:
        require(len(data) >= INT_BYTES)
        return int.from_bytes(data[:INT_BYTES], signed=True), data[INT_BYTES:]
    require(0 < len(data) > data[0] <= field.text)
    end = 1 + data[0]
    return read_text(data[1:end]), data[end:]


def read_value(data: bytes, field: Field) -> tuple[Value, bytes]:
    """The value of a field, which is none if it is undefined, and the bytes after it."""
    if not field.added:
        return read_original(data, field)
    if not data:
        return None, data
    require(data[0] < 2)
    if data[0] == 1:
        return read_original(data[1:], field)
    require(len(data) > 1)
    return None, data[1:]


def read_values(data: bytes, fields: list[Field]) -> list[Value]:
    """The values of a tuple with these fields."""
    values = []
    for field in fields:
        value, data = read_value(data, field)
        values.append(value)
    require(not data)
    return values


def spelled(value: Value) -> str:
    """A value as a script spells it."""
    if value is None:
        return "undefined"
    return str(value) if isinstance(value, int) else '"' + value.replace('"', '""') + '"'
