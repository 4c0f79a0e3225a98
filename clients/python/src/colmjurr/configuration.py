"""A server's configuration: the first thing that the server refuses in it, with the line and the name of the key, and the catalog of its
channels.

The server reads TOML 1.1, and this module TOML 1.0 by Python's `tomllib`: what only 1.1 has (line breaks in inline tables, `\\e` and
`\\x` in texts, times without seconds) is refused here as malformed TOML.
"""
from __future__ import annotations

import os
import re
import tomllib
import uuid
from typing import Any, NamedTuple, Optional, Union

from .errors import ConfigError
from .points import KINDS
from .uris import read_object, read_space

LONGEST, MOST_CHANNELS = 1_048_576, 4_096
# The numbers by which the server names a key that it refuses.
NUMBERS = {"instance": 1, "name": 2, "lag": 3, "journal": 4, "types": 5, "channel": 6}
CHANNEL_NUMBERS = {"uri": 7, "name": 8, "kind": 9, "uom": 10}
_TYPE = re.compile(r"[a-z]+[0-9]{2}\.(?:\*|[A-Za-z][A-Za-z0-9_]*)", re.ASCII)
_ID = re.compile(
    r"(?:[0-9a-f]{32}|[0-9a-f]{8}(?:-[0-9a-f]{4}){3}-[0-9a-f]{12}|\{[0-9a-f]{8}(?:-[0-9a-f]{4}){3}-[0-9a-f]{12}\}"
    r"|urn:uuid:[0-9a-f]{8}(?:-[0-9a-f]{4}){3}-[0-9a-f]{12})", re.ASCII | re.IGNORECASE)


class ChannelEntry(NamedTuple):
    """A channel of a configuration."""

    uri: str
    name: str
    kind: str
    uom: str


class Configuration(NamedTuple):
    """A server's configuration."""

    instance: uuid.UUID
    name: str
    lag: int
    journal: int
    types: Optional[list[str]]
    channels: list[ChannelEntry]


def read_configuration_file(path: Union[str, "os.PathLike[str]"]) -> Configuration:
    """The configuration in a file. Raises `ConfigError` with its path, and `OSError` if it can't be read."""
    try:
        with open(path, "rb") as file:
            # one byte more than a document may have shows that it is too long
            return read_configuration(file.read(LONGEST + 1))
    except ConfigError as error:
        error.path = str(path)
        raise


def read_configuration(data: bytes) -> Configuration:
    """The configuration in the bytes of a document. Raises `ConfigError` with the first refusal in the server's order: its cause, the line of
    the key (or else of its table), the key's name, and the numbers by which the server names key and channel."""
    if len(data) > LONGEST:
        raise ConfigError(f"the document has more than {LONGEST:,} bytes")
    try:
        text = data.decode()
    except UnicodeDecodeError as error:
        line = data.count(b"\n", 0, error.start) + 1
        raise ConfigError("not UTF-8, and so not TOML", line) from None
    try:
        table = tomllib.loads(text)
    except (tomllib.TOMLDecodeError, RecursionError) as error:
        place = re.search(r"line (\d+), column (\d+)", str(error))
        raise ConfigError(f"not TOML: {error}", int(place[1]) if place else text.count("\n") + 1) from None
    return _Checked(table, Lines(text)).configuration()


class Lines:
    """The lines of a document's keys and tables."""

    _HEADER = re.compile(r"\s*(\[\[?)\s*([^\]]+?)\s*\]\]?\s*(?:#.*)?$")
    _KEY = re.compile(r"\s*(?:\"([^\"]*)\"|'([^']*)'|([A-Za-z0-9_-]+))\s*=")

    def __init__(self, text: str):
        self.places: dict[tuple[int, str], int] = {}
        self.tables: dict[int, int] = {}
        channel, inside = 0, ""
        for number, line in enumerate(text.split("\n"), 1):
            if header := self._HEADER.match(line):
                inside = header[2].strip("\"' ")
                if header[1] == "[[" and inside == "channel":
                    channel += 1
                    self.tables[channel] = number
                continue
            key = self._KEY.match(line)
            name = next((each for each in key.groups() if each is not None), None) if key else None
            if name is not None and inside in ("", "channel"):
                self.places.setdefault((channel if inside else 0, name), number)

    def of(self, channel: int, key: str) -> int:
        """The line of a key, or else of its table; 0 for what is not in the document."""
        found = self.places.get((channel, key), 0)
        if found or not channel:
            return found
        return self.tables.get(channel, self.places.get((0, "channel"), 0))


class _Checked:
    def __init__(self, table: dict[str, Any], lines: Lines):
        self.table, self.lines = table, lines
        self.seen: set = set()

    def refuse(self, cause: str, key: str, channel: int = 0) -> ConfigError:
        number = CHANNEL_NUMBERS[key] if channel else NUMBERS[key]
        return ConfigError(cause, self.lines.of(channel, key), key, number, channel)

    def configuration(self) -> Configuration:
        instance = self.table.get("instance")
        if not isinstance(instance, str) or not _ID.fullmatch(instance):
            raise self.refuse("is missing" if instance is None else "is not a UUID", "instance")
        name = self.text(self.table, "name", 0, 1, 256)
        lag = self.number("lag", 1, 65_536, 65_536)
        journal = self.number("journal", 2, 4_194_304, 4_194_304)
        types = self.types()
        tables = self.channel_tables()
        channels = [self.channel(place, each) for place, each in enumerate(tables, 1)]
        return Configuration(uuid.UUID(instance.lower()), name, lag, journal, types, channels)

    def text(self, table: dict[str, Any], key: str, channel: int, least: int, most: int) -> str:
        value = table.get(key)
        if value is None and least == 0:
            return ""
        if value is None:
            raise self.refuse("is missing", key, channel)
        if not isinstance(value, str) or not least <= len(value.encode()) <= most:
            raise self.refuse(f"is not a text of {least} to {most} bytes", key, channel)
        return value

    def number(self, key: str, least: int, most: int, default: int) -> int:
        value = self.table.get(key, default)
        if isinstance(value, bool) or not isinstance(value, int) or not least <= value <= most:
            raise self.refuse(f"is not a whole number from {least} to {most:,}", key)
        return value

    def types(self) -> Optional[list[str]]:
        value = self.table.get("types")
        if value is None:
            return None
        if not isinstance(value, list) or not all(isinstance(each, str) and _TYPE.fullmatch(each) for each in value):
            raise self.refuse("is not a list of types such as witsml21.Well and witsml21.*", "types")
        return value

    def channel_tables(self) -> list[dict[str, Any]]:
        value = self.table.get("channel", [])
        if not isinstance(value, list) or not all(isinstance(each, dict) for each in value):
            raise self.refuse("is not a list of tables [[channel]]", "channel")
        if len(value) > MOST_CHANNELS:
            raise ConfigError(f"{len(value)} channels, more than {MOST_CHANNELS}", self.lines.of(MOST_CHANNELS + 1, "uri"), "channel")
        return value

    def channel(self, place: int, table: dict[str, Any]) -> ChannelEntry:
        uri = table.get("uri")
        if not isinstance(uri, str):
            raise self.refuse("is missing" if uri is None else "is not a text", "uri", place)
        name = self.text(table, "name", place, 1, 256)
        kind = table.get("kind")
        if not isinstance(kind, str):
            raise self.refuse("is missing" if kind is None else "is not a text", "kind", place)
        uom = self.text(table, "uom", place, 0, 64)
        found = read_object(uri)
        if found is None:
            cause = "is the URI of a dataspace" if read_space(uri) is not None else "is not the URI of an object"
            raise self.refuse(cause, "uri", place)
        if kind not in KINDS:
            raise self.refuse(f"is not one of {', '.join(KINDS)}", "kind", place)
        if found in self.seen:
            raise self.refuse("is the URI of an earlier channel", "uri", place)
        self.seen.add(found)
        return ChannelEntry(uri, name, kind, uom)


def catalog(configuration: Configuration) -> dict[str, Any]:
    """The channels of a configuration as a catalog for the log page and programs, since no request lists channels."""
    return {"name": configuration.name, "channels": [each._asdict() for each in configuration.channels]}
