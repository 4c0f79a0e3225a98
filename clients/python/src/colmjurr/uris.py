"""The URIs of dataspaces and objects."""
from __future__ import annotations

import re
import uuid
from typing import NamedTuple, Optional, Union

from .errors import ValueRefused

_OBJECT = re.compile(
    r"eml:///(?:dataspace\('((?:[^']|'')+)'\)/)?([a-z]+[0-9]{2}\.[A-Za-z][A-Za-z0-9_]*)"
    r"\(([0-9a-fA-F]{8}(?:-[0-9a-fA-F]{4}){3}-[0-9a-fA-F]{12})\)", re.ASCII | re.DOTALL)
_SPACE = re.compile(r"eml:///(?:dataspace\('((?:[^']|'')+)'\))?", re.DOTALL)


class ObjectName(NamedTuple):
    """The dataspace's path, the type and the identifier of an object."""

    space: str
    type: str
    id: uuid.UUID


def space_uri(path: str = "") -> str:
    """The URI of the dataspace of a path, which has at most 256 bytes of UTF-8; the default dataspace has the empty path."""
    if len(path.encode()) > 256:
        raise ValueRefused(f"the path of a dataspace has at most 256 bytes, not {len(path.encode())}")
    quoted = path.replace("'", "''")
    return f"eml:///dataspace('{quoted}')" if path else "eml:///"


def object_uri(type: str, id: Union[str, uuid.UUID], space: str = "") -> str:
    """The URI of an object of a type such as `witsml21.Well`, in the dataspace of a path. Raises `ValueRefused` if `id` is not a UUID or
    `type` is not the name of a type."""
    try:
        made = space_uri(space) + ("/" if space else "") + f"{type}({uuid.UUID(str(id))})"
    except ValueError as error:
        raise ValueRefused(f"{id!r} is not a UUID") from error
    if read_object(made) is None:
        raise ValueRefused(f"{type!r} is not a type of objects, such as witsml21.Well")
    return made


def read_object(uri: str) -> Optional[ObjectName]:
    """The parts of an object's URI, or None if the text is not one."""
    match = _OBJECT.fullmatch(uri)
    path = (match[1] or "").replace("''", "'") if match else ""
    if match is None or len(path.encode()) > 256 or len(uri.encode()) > 2048:
        return None
    return ObjectName(path, match[2], uuid.UUID(match[3]))


def read_space(uri: str) -> Optional[str]:
    """The path of a dataspace's URI, or None if the text is not one."""
    match = _SPACE.fullmatch(uri)
    path = (match[1] or "").replace("''", "'") if match else ""
    return path if match and len(path.encode()) <= 256 and len(uri.encode()) <= 2048 else None
