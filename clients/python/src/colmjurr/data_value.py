"""Data values, which custom data are made of, as Python values."""
from __future__ import annotations

from typing import Any, Mapping

from .errors import ValueRefused

_LISTS = {bool: 7, int: 11, float: 14, str: 15, bytes: 16}


def to_wire(value: Any) -> dict:
    """The data value for None, a bool, an int (as a long), a float (as a double), a str, bytes, or a list of values of one of these types,
    in which None may be among bools and ints. Raises `ValueRefused` for anything else."""
    if value is None:
        return {"item": (0, None)}
    for kind, branch in ((bool, 1), (int, 3), (float, 5), (str, 6), (bytes, 17)):
        if isinstance(value, kind):
            return {"item": (branch, value)}
    if isinstance(value, (list, tuple)):
        kinds = {type(each) for each in value}
        nullable = type(None) in kinds
        kinds.discard(type(None))
        if len(kinds) == 1 and (kind := kinds.pop()) in _LISTS and (not nullable or kind in (bool, int)):
            return {"item": (_LISTS[kind] + nullable, {"values": list(value)})}
        if not kinds and not nullable:
            return {"item": (15, {"values": []})}
    raise ValueRefused(f"{value!r:.80} can't be a data value")


def from_wire(value: dict) -> Any:
    """The Python value of a data value. A sparse array becomes a list of pairs of a start and a list."""
    branch, inner = value["item"]
    if branch == 18:
        return [(each["start"], _elements(each["slice"])) for each in inner["slices"]]
    return inner["values"] if 7 <= branch <= 16 else inner


def _elements(array: dict) -> list:
    branch, inner = array["item"]
    return list(inner) if branch == 6 else inner["values"]


def custom_to_wire(custom: Mapping[str, Any]) -> dict[str, dict]:
    return {name: to_wire(value) for name, value in custom.items()}


def custom_from_wire(custom: dict[str, dict]) -> dict[str, Any]:
    return {name: from_wire(value) for name, value in custom.items()}
