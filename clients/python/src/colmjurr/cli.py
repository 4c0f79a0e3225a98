"""The command line: `python3 -m colmjurr COMMAND ..`. The README says what each command does, and `--help` how it is called.

Statuses: 0 done; 1 usage, or a package that is not installed; 2 a configuration is refused; 4 a file can't be read or written; 9 the server
refused; 10 no connection; 11 the connection was lost, or the server broke the protocol; 12 malformed input; 16 the server stopped the
subscriptions; 17 answers or copies differ.
"""
from __future__ import annotations

import argparse
import asyncio
import csv
import json
import math
import os
import re
import select
import shlex
import socket
import subprocess
import sys
import threading
import time
from pathlib import Path
from typing import Any, BinaryIO, Callable, Iterator, NoReturn, Optional, TextIO

from . import aio, conformance
from .bridge import Bridge, StreamError, plain_value
from .configuration import Configuration, catalog, read_configuration, read_configuration_file
from .copying import Difference, copy, read_objects
from .errors import (
    ConfigError, DialError, EtpError, HandshakeError, JournalError, LinkError, Refused, SomeRefused, Stopped, TimeLimit, ValueRefused, WireError,
)
from .exporter import Exporter
from .journal import Entry, Journal
from .points import GREATEST, LEAST, Points, csv_lines, index_of, moment_text
from .progress import Bar
from .store import MOST_DATA
from .sync import Channel, Store, connect
from .version import VERSION
from .watching import Append, Change, Gap, Replace, Restarted, Truncate
from .websocket import Address

USAGE, CONFIG, FILE, REFUSED, LINK, PEER, INPUT, STOPPED, DIFFERS = 1, 2, 4, 9, 10, 11, 12, 16, 17
# How many bytes of an input are read at once, and how many of its points are few enough to wait for more before they are sent.
READ, FEW = 1 << 18, 100
# The longest text or bytes of a point, and the longest line of an input, in bytes.
LONGEST_VALUE, LONGEST_LINE = 32_768, 1 << 20
# How many things that an entry touches are listed, unless all are.
SHOWN = 4
# The most bytes of a file that names things: a catalog, a list of objects, a password.
LONGEST_FILE = 1 << 24


class InputError(Exception):
    """A malformed line of the input."""


class Parser(argparse.ArgumentParser):
    """Ends with status 1 when it is called wrongly."""

    def error(self, message: str) -> NoReturn:
        self.print_usage(sys.stderr)
        sys.stderr.write(f"{self.prog}: {message}\n")
        sys.exit(USAGE)


# --- connecting --------------------------------------------------------------------------------------------------------


def how_to_connect(words: argparse.Namespace) -> dict[str, Any]:
    """The connection as the options say. A password is taken from COLMJURR_PASSWORD or a file, never from the command line, where others
    could see it."""
    password = os.environ.get("COLMJURR_PASSWORD")
    if words.password_file:
        password = read_text(words.password_file).rstrip("\r\n")
    cert = (words.cert, words.key) if words.cert and words.key else words.cert
    limits = {"ask_timeout": words.ask_timeout, "patience": words.patience}
    return {
        "user": words.user, "password": password, "ca": words.ca, "cert": cert, "timeout": words.timeout, "headers": dict(words.header),
        **{name: value for name, value in limits.items() if value is not None},
    }


def opened(words: argparse.Namespace) -> Store:
    return connect(words.url, **how_to_connect(words))


def read_at_most(path: str, limit: int) -> bytes:
    """The bytes of a file. Raises `ValueRefused` if there are more than `limit`, before they are read."""
    with open(path, "rb") as file:
        data = file.read(limit + 1)
    if len(data) > limit:
        raise ValueRefused(f"{path} has more than {limit:,} bytes")
    return data


def read_text(path: str) -> str:
    """The text of a file that names things. Raises `ValueRefused` if it is too long or not UTF-8."""
    try:
        return read_at_most(path, LONGEST_FILE).decode()
    except UnicodeDecodeError as error:
        raise ValueRefused(f"{path} is not UTF-8 at {error.start}") from None


def output(words: argparse.Namespace) -> TextIO:
    return open(words.output, "w", newline="", encoding="utf-8") if words.output else sys.stdout


# --- commands ----------------------------------------------------------------------------------------------------------


def ping(words: argparse.Namespace) -> None:
    with opened(words) as store:
        print(f"pong {store.ping() * 1000:.1f} ms from {store.info.name}")


def spaces(words: argparse.Namespace) -> None:
    with opened(words) as store:
        for each in store.spaces():
            print(f"{each.uri} {moment_text(each.written)} {moment_text(each.created)}")


def get(words: argparse.Namespace) -> None:
    with opened(words) as store, Bar("get", "bytes") as bar:
        data = store.get(words.uri, words.format, progress=bar).data
    if words.output:
        Path(words.output).write_bytes(data)
    else:
        sys.stdout.buffer.write(data)


def put(words: argparse.Namespace) -> None:
    data = read_at_most(words.file, MOST_DATA)
    with opened(words) as store, Bar("put", "bytes") as bar:
        store.put(words.uri, data, name=words.name, format=words.format, progress=bar)
    print(f"put {words.uri}")


def delete(words: argparse.Namespace) -> None:
    with opened(words) as store:
        store.delete(words.uri)
    print(f"deleted {words.uri}")


def moment(text: Optional[str]) -> Optional[int]:
    """A moment on the command line: microseconds, or ISO 8601. None and `-` are the channel's beginning or end."""
    return None if text is None or text == "-" else index_of(int(text) if re.fullmatch(r"-?[0-9]{1,20}", text) else text)


def channels(words: argparse.Namespace) -> None:
    uris = [*uris_of(words.catalog), *words.uri]
    if not uris:
        raise ValueRefused("name channels by their URIs or by --catalog: no request lists them")
    with opened(words) as store:
        for each in store.channels(uris):
            ends = ["-" if end is None else moment_text(end) for end in (each.first, each.last)]
            print("\t".join([each.name, each.kind, each.unit or "-", *ends, each.uri]))


def range_(words: argparse.Namespace) -> None:
    with opened(words) as store, Bar("range", "bytes") as bar:
        points = store.channel(words.uri).range(moment(words.start), moment(words.end), progress=bar)
    if words.csv:
        file = output(words)
        points.to_csv(file, time=not words.microseconds)
    else:
        lines, left_out = point_lines(points)
        file = output(words)
        file.writelines(lines)
        if left_out:
            say(f"colmjurr: {left_out} points without a value are left out; --csv writes them")
    file.flush()


def point_lines(points: Points) -> tuple[list[str], int]:
    """The lines INDEX VALUE of points, and how many points have no line, since their value is null. Raises `ValueRefused` for a text that
    would not be read back from its line."""
    lines = []
    for index, value in points:
        if isinstance(value, str) and ("\n" in value or "\r" in value):
            raise ValueRefused(f"the text at index {index} has a line break: use --csv")
        if value is not None:
            lines.append(f"{index} {shown(value)}\n")
    return lines, len(points) - len(lines)


def shown(value: Any) -> str:
    if isinstance(value, bool):
        return "true" if value else "false"
    if isinstance(value, str):
        return value.replace("\r", "\\r").replace("\n", "\\n")
    return "" if value is None else value.hex() if isinstance(value, bytes) else str(value)


def follow(words: argparse.Namespace) -> None:
    start = words.start if words.start == "now" else None if words.start == "first" else moment(words.start)
    with opened(words) as store:
        followed = store.channels(words.uri)
        named = "{} " if len(followed) > 1 else ""
        with store.watch(followed, resume=None if words.resume == "none" else words.resume,
                         start=None if words.latest else start, latest=words.latest) as watch:
            for change in watch:
                if words.json:
                    sys.stdout.write(json.dumps(change_record(change), ensure_ascii=False) + "\n")
                else:
                    sys.stdout.writelines(named.format(change.channel.name) + line + "\n" for line in change_lines(change))
                sys.stdout.flush()


def change_lines(change: Change) -> Iterator[str]:
    """The lines of a change. An append has a line for each point; any other change has its own line, and then its points after `with`."""
    if isinstance(change, Append):
        yield from (f"append {index} {shown(value)}" for index, value in change.points)
    elif isinstance(change, Truncate):
        yield f"truncate {change.end}"
    elif isinstance(change, Gap):
        yield f"gap {change.reason}"
    else:
        yield f"replace {change.start} {change.end}" if isinstance(change, Replace) else f"replace {LEAST} {GREATEST}"
        yield from (f"with {index} {shown(value)}" for index, value in change.points)


def change_record(change: Change) -> dict[str, Any]:
    """A change as an object of JSON. Values are as in the streams of the bridge: bytes in hexadecimal, and `"NaN"`, `"Infinity"` and
    `"-Infinity"` as texts."""
    made: dict[str, Any] = {"channel": change.channel.uri, "change": type(change).__name__.lower()}
    if isinstance(change, Replace):
        made["start"] = change.start
    if isinstance(change, (Replace, Truncate)):
        made["end"] = change.end
    if isinstance(change, Gap):
        made["reason"] = change.reason
    if isinstance(change, (Append, Replace, Restarted)):
        made["points"] = [[index, plain_value(value)] for index, value in change.points]
    return made


def load(words: argparse.Namespace) -> None:
    with opened(words) as store:
        channel = store.channel(words.uri)
        with open_input(words.file) as stream, Bar("load", "points") as bar:
            loader = channel.loader(every=words.every, most=words.most, skip_known=words.skip_known, progress=bar)
            try:
                with loader:
                    for lot in Input(stream, channel.kind, words.csv).lots():
                        if len(lot) > FEW:
                            loader.load_many([index for index, _ in lot], [value for _, value in lot])
                        else:
                            for index, value in lot:
                                loader(index, value)
            except (EtpError, InputError):
                say(f"colmjurr: {loader.taken} points were loaded before this error:")
                raise
    print(f"loaded {loader.taken}" + (f" skipped {loader.skipped}" if words.skip_known else ""))


def open_input(path: Optional[str]) -> BinaryIO:
    """A file, or the standard input, without a buffer: what has arrived can be read without waiting for more."""
    if path in (None, "-"):
        if sys.stdin is None:
            raise InputError("there is no standard input")
        return open(sys.stdin.fileno(), "rb", buffering=0, closefd=False)  # type: ignore[return-value]
    return open(str(path), "rb", buffering=0)  # type: ignore[return-value]


class Input:
    """Points in lines `INDEX VALUE`, or in the first two columns of a CSV file after a line of heads, in which an empty value is null."""

    def __init__(self, stream: BinaryIO, kind: str, is_csv: bool):
        self.stream, self.kind, self.is_csv = stream, kind, is_csv
        self.number = 0
        self.last: Optional[int] = None

    def lots(self) -> Iterator[list[tuple[int, Any]]]:
        """The points, each time as many as have arrived. Raises `InputError` with the number of the first malformed line, counted from 1,
        after the points before it were given."""
        rest = b""
        while (data := self.stream.read(READ)) != b"":
            if data is None:
                # an input that does not block has nothing just now
                select.select([self.stream], [], [])
                continue
            rest += data
            end = rest.rfind(b"\n") + 1
            # a row of CSV may have line breaks within quotation marks
            if end and not (self.is_csv and rest[:end].count(b'"') % 2):
                yield from self.lot(rest[:end])
                rest = rest[end:]
            if len(rest) > LONGEST_LINE + READ:
                raise InputError(f"input line {self.number + 1}: more than {LONGEST_LINE:,} bytes")
        if rest:
            yield from self.lot(rest)

    def lot(self, data: bytes) -> Iterator[list[tuple[int, Any]]]:
        """The points of whole lines, also those before a malformed one."""
        found: list[tuple[int, Any]] = []
        try:
            for each in self.points(data):
                found.append(each)
        except InputError:
            yield found
            raise
        yield found

    def points(self, data: bytes) -> Iterator[tuple[int, Any]]:
        try:
            text, problem = data.decode(), None
        except UnicodeDecodeError as error:
            good = data[:data.rfind(b"\n", 0, error.start) + 1]
            text, problem = good.decode(), InputError(f"input line {self.number + 1 + good.count(10)}: not UTF-8")
        if text:
            yield from self.rows(text) if self.is_csv else self.lines(text)
        if problem is not None:
            raise problem

    def lines(self, text: str) -> Iterator[tuple[int, Any]]:
        for line in text.removesuffix("\n").split("\n"):
            self.number += 1
            index, space, value = line.removesuffix("\r").partition(" ")
            yield self.point(self.number, index, value if space else None)

    def rows(self, text: str) -> Iterator[tuple[int, Any]]:
        rows = csv.reader(line + "\n" for line in text.removesuffix("\n").split("\n"))
        before = self.number
        try:
            for row in rows:
                begin, self.number = self.number + 1, before + rows.line_num
                if begin > 1 and row:
                    yield self.point(begin, row[0], row[1] if len(row) > 1 else None)
        except csv.Error as error:
            raise InputError(f"input line {self.number + 1}: {error}") from None

    def point(self, number: int, index: str, text: Optional[str]) -> tuple[int, Any]:
        """The point of a line's index and value."""
        try:
            at = moment(index)
            if at is None:
                raise ValueError("no index")
            if not LEAST <= at <= GREATEST:
                raise ValueError(f"the index {at} is out of range")
            if self.last is not None and at <= self.last:
                raise ValueError(f"the index {at} does not rise above {self.last}")
            if text is None:
                raise ValueError("no value")
            self.last = at
            return at, None if self.is_csv and text == "" and self.kind != "string" else value_of(self.kind, text)
        except ValueError as error:
            raise InputError(f"input line {number}: {error}") from None


def value_of(kind: str, text: str) -> Any:
    """The value that a text has for a kind of channel. Raises `ValueError` if it has none."""
    if kind == "boolean":
        found = {"true": True, "false": False, "1": True, "0": False}.get(text.strip().lower())
        if found is None:
            raise ValueError(f"{text!r:.60} is not a boolean")
        return found
    if kind in ("int", "long"):
        bits = 31 if kind == "int" else 63
        if not re.fullmatch(r"\s*[+-]?[0-9]{1,20}\s*", text, re.ASCII):
            raise ValueError(f"{text!r:.60} is not a whole number")
        number = int(text)
        if not -(1 << bits) <= number < 1 << bits:
            raise ValueError(f"{number} is out of range of {kind}")
        return number
    if kind in ("float", "double"):
        try:
            value = float(text)
        except ValueError:
            raise ValueError(f"{text!r:.60} is not a number") from None
        if kind == "float" and math.isfinite(value) and abs(value) > 3.4028234663852886e38:
            raise ValueError(f"{text} is out of range of float")
        return value
    if kind == "bytes":
        try:
            raw = bytes.fromhex(text)
        except ValueError:
            raise ValueError(f"{text!r:.60} is not hexadecimal") from None
        size = len(raw)
    else:
        raw, size = b"", len(text.encode())
    if size > LONGEST_VALUE:
        raise ValueError(f"a value of {size:,} bytes, more than {LONGEST_VALUE:,}")
    return raw if kind == "bytes" else text


def plot(words: argparse.Namespace) -> None:
    from .plots import plot_log

    with opened(words) as store, Bar("plot", "bytes") as bar:
        tracks = [read_track(each, words, bar) for each in store.channels(words.uri)]
        depth = read_track(store.channel(words.depth), words, bar) if words.depth else None
        title = store.info.name
    figure = plot_log(tracks, depth=depth, title=title)
    try:
        figure.savefig(words.output, dpi=words.dpi)
    except ValueError as error:
        raise ValueRefused(f"{words.output}: {error}") from None
    print(f"plotted {', '.join(str(len(each)) for each in tracks)} points in {words.output}")


def read_track(channel: Channel, words: argparse.Namespace, bar: Bar) -> Points:
    return channel.range(moment(words.start), moment(words.end), progress=bar)


def check_config(words: argparse.Namespace) -> None:
    found = read_configuration_file(words.file)
    print(f"{words.file}: {found.name}, {len(found.channels)} channels")


def catalog_(words: argparse.Namespace) -> None:
    made = catalog(read_configuration_file(words.file))
    file = output(words)
    json.dump(made, file, ensure_ascii=False, indent=1)
    file.write("\n")
    file.flush()


def journal_ls(words: argparse.Namespace) -> None:
    settings = journal_settings(words)
    with opened_journal(words, settings) as journal:
        print(f"instance {journal.instance}")
        for entry in journal.entries():
            touched = [re.sub(r"[\t\r\n]", " ", each) for each in touches(entry, settings)]
            if len(touched) > SHOWN and not words.all:
                touched[SHOWN:] = [f"and {len(touched) - SHOWN} more"]
            print("\t".join([str(entry.place), str(entry.offset), str(entry.size), moment_text(entry.at), str(entry.session), entry.act, ", ".join(touched)]))
        print(end_of(journal))


def journal_settings(words: argparse.Namespace) -> Optional[Configuration]:
    return read_configuration_file(words.config) if words.config else None


def opened_journal(words: argparse.Namespace, settings: Optional[Configuration]) -> Journal:
    journal = Journal.open(words.file)
    if settings is not None:
        journal.check_instance(settings.instance)
    return journal


def touches(entry: Entry, settings: Optional[Configuration]) -> list[str]:
    """What an entry touches, each in a few words."""
    names = [each.name for each in settings.channels] if settings else []
    made = [f"dataspace {uri}" for uri in entry.spaces] + [f"object {uri}" for uri in entry.objects]
    made += [f"array {path} of {uri}" for uri, path in entry.arrays]
    for channel, count in entry.channels.items():
        name = f" {names[channel]}" if 0 <= channel < len(names) else ""
        made.append(f"channel {channel}{name}" + (f": {count} point{'s' * (count != 1)}" if entry.act in ("Append", "Replace") else ""))
    made += [f"channel {each['name']} {each['uri']}" for each in entry.defined] + [f"channel {each}" for each in entry.retired]
    return made + ([f"{entry.read} key{'s' * (entry.read != 1)} used"] if entry.read else [])


def end_of(journal: Journal) -> str:
    """Where a journal that was read whole ends, and what follows."""
    behind = journal.behind()
    gate = f", its gate is {journal.gate}" if journal.gate else ""
    tail = f"; the {behind} bytes from {journal.size - behind} on belong to no entry" if behind else ""
    return f"entries end at byte {journal.end}{gate}{tail}"


def journal_export(words: argparse.Namespace) -> None:
    settings = journal_settings(words)
    with opened_journal(words, settings) as journal:
        if words.csv is None:
            lines = journal.records()
        else:
            number, name = journal_channel(journal, words.csv, settings)
            lines = csv_lines(journal.points(number), name, not words.microseconds)
        file = output(words)
        try:
            file.writelines(lines)
        finally:
            # what stands before the damage is good
            file.flush()


def journal_channel(journal: Journal, text: str, settings: Optional[Configuration]) -> tuple[int, str]:
    """The number and the name of a channel that is named by its number or its URI."""
    configured = settings.channels if settings else []
    number: Optional[int] = int(text) if re.fullmatch("[0-9]{1,19}", text) else None
    if number is None and settings is None:
        raise ValueRefused(f"{text}: entries name channels by their numbers: give --config, by which the number of a URI is known, or a number")
    if number is None:
        number = journal.channel_number(text, [each.uri for each in configured])
    if number is None:
        raise ValueRefused(f"{text}: neither the configuration nor the journal has a channel of this URI")
    return number, configured[number].name if number < len(configured) else f"channel {number}"


def uris_of(path: Optional[str]) -> list[str]:
    """The channels of a catalog, or of a server's configuration."""
    if path is None:
        return []
    data = read_at_most(path, LONGEST_FILE)
    try:
        if data.lstrip()[:1] != b"{":
            return [each.uri for each in read_configuration(data).channels]
        return [str(each["uri"]) for each in json.loads(data)["channels"]]
    except (ValueError, KeyError, TypeError) as error:
        raise ValueRefused(f"{path} is not a catalog: {error}") from None
    except ConfigError as error:
        error.path = path
        raise


def say(line: str) -> None:
    """Writes a line to standard error."""
    sys.stderr.write(line + "\n")
    sys.stderr.flush()


def exporter(words: argparse.Namespace) -> None:
    host, port = words.listen
    made = Exporter(words.url, [*uris_of(words.catalog), *words.channel], words.every, **how_to_connect(words))
    asyncio.run(made.serve(host, port, lambda port: say(f"listening at port {port}")))


def bridge(words: argparse.Namespace) -> None:
    import redis  # noqa: F401

    bridges = []
    for each in words.store:
        url, found, path = each.partition("=")
        if not found:
            raise ValueRefused(f"{each!r} is not of the form URL=CATALOG")
        bridges.append(Bridge(url, uris_of(path), words.redis, words.prefix, say, **how_to_connect(words)))

    async def run() -> None:
        await asyncio.gather(*(each.run() for each in bridges))

    asyncio.run(run())


def copy_(words: argparse.Namespace) -> None:
    text = read_text(words.objects) if words.objects else ""
    try:
        objects = read_objects(text)
    except ValueRefused as error:
        raise ValueRefused(f"{words.objects}: {error}") from None
    copied = [*uris_of(words.catalog), *words.channel]

    def told(line: str) -> None:
        bar.clear()
        print(line, flush=True)

    async def run(bar: Bar) -> None:
        how = how_to_connect(words)
        async with aio.connect(words.source, **how) as source, aio.connect(words.target, **how) as target:
            await copy(source, target, copied, objects, told, bar)

    with Bar("copy", "points") as bar:
        asyncio.run(run(bar))


# --- conformance -------------------------------------------------------------------------------------------------------


def conformance_(words: argparse.Namespace) -> None:
    words.url = next((each for each in words.places if each.startswith(("ws://", "wss://"))), None)
    if not (words.url or words.etpd):
        raise ValueRefused("conformance needs the address of a server, or --etpd with a program")
    samples = samples_of([Path(each) for each in words.places if each != words.url])
    if len(samples) > 1 and not words.etpd and not words.restart and not sys.stdin.isatty():
        raise ValueRefused(f"{len(samples)} samples, and each needs a server without a history: name one of them, or give --restart COMMAND")
    worst = 0
    for path, answers, settings in samples:
        with server_for(words, settings, len(samples) > 1) as url:
            how = how_to_connect(words)
            found = conformance.play_file(url, path, answers, **{name: how[name] for name in ("headers", "ca", "cert", "timeout")})
        print(f"{path.stem}: {'as recorded' if not found else f'{len(found)} answers differ'}", flush=True)
        for each in found[:words.most]:
            print(f"  tag {each.tag}, {each.place}\n    recorded {each.wanted}\n    received {each.came}")
        worst = max(worst, len(found))
    if worst:
        sys.exit(DIFFERS)


def samples_of(places: list[Path]) -> list[tuple[Path, Path, Optional[Path]]]:
    """The captures with their answers and configurations, as they are named: files, folders, or those that are shipped."""
    if not places:
        shipped = conformance.shipped_samples()
        if shipped is None:
            raise ValueRefused("name a capture NAME.cap or a folder of captures, such as docs/samples of the repository")
        places = [shipped]
    found: list[tuple[Path, Path, Optional[Path]]] = []
    for place in places:
        folder = place if place.is_dir() else place.parent
        several = [each for each in conformance.samples_in(folder) if place.is_dir() or each[0] == place]
        if not several:
            raise ValueRefused(f"{place}: no capture NAME.cap beside its NAME.answers.cap")
        found += several
    return found


class server_for:
    """The server that a sample is played against: a fresh one of `--etpd`, or the one at the address, which `--restart` or the user starts
    again before each sample."""

    def __init__(self, words: argparse.Namespace, settings: Optional[Path], is_one_of_several: bool):
        self.words, self.is_one_of_several = words, is_one_of_several
        self.settings = settings or words.settings
        self.process: Any = None

    def __enter__(self) -> str:
        if self.words.etpd:
            return self.started()
        if self.words.restart:
            command = [*shlex.split(self.words.restart), str(self.settings or "")]
            done = subprocess.run(command, stdin=subprocess.DEVNULL, stdout=sys.stderr.fileno())
            if done.returncode:
                raise DialError(f"{shlex.join(command)} ended with status {done.returncode}")
            self.wait_until_there()
        elif self.is_one_of_several:
            say(f"Start a server without a history at {self.words.url}, configured by {self.settings}, and press Enter.")
            sys.stdin.readline()
        return str(self.words.url)

    def wait_until_there(self) -> None:
        """Returns as soon as the server takes connections. A WebSocket would be a part of its history, so none is opened."""
        address = Address(self.words.url)
        end = time.monotonic() + self.words.timeout
        while True:
            try:
                with socket.create_connection((address.host, address.port), self.words.timeout):
                    return
            except OSError as error:
                if time.monotonic() > end:
                    raise DialError(f"no connection to {address.host}:{address.port}: {error}") from None
                time.sleep(0.05)

    def started(self) -> str:
        if self.settings is None:
            raise ValueRefused("a sample without a configuration of its own needs --settings")
        self.process = subprocess.Popen(
            [self.words.etpd, str(self.settings), "127.0.0.1:0"], stdout=subprocess.DEVNULL, stderr=subprocess.PIPE)
        said: Any = self.process.stderr
        limit = threading.Timer(self.words.timeout, self.process.kill)
        limit.start()
        line = said.readline().decode("utf-8", "replace")
        limit.cancel()
        found = re.search(r"(\d+)\s*$", line)
        if not found:
            raise DialError(f"the server does not start: {line.strip()}")
        return f"ws://127.0.0.1:{found[1]}/"

    def __exit__(self, *error: Any) -> None:
        if self.process:
            self.process.kill()
            self.process.wait()
            self.process.stderr.close()


# --- the words ---------------------------------------------------------------------------------------------------------


def parser() -> argparse.ArgumentParser:
    top = Parser(prog="colmjurr", description="A client of the well data store.")
    top.add_argument("--version", action="version", version=VERSION)
    commands: Any = top.add_subparsers(required=True, metavar="COMMAND", parser_class=Parser)
    link = connection_options()

    def command(name: str, run: Callable[[argparse.Namespace], None], text: str, *, has_url: bool = True) -> argparse.ArgumentParser:
        made: argparse.ArgumentParser = commands.add_parser(name, help=text, description=text[:1].upper() + text[1:] + ".", parents=[link] if has_url else [])
        made.set_defaults(run=run)
        if has_url and name not in ("conformance", "copy", "bridge"):
            made.add_argument("url", help="ws://HOST:PORT/PATH or wss://HOST:PORT/PATH")
        return made

    add_store_commands(command)
    add_channel_commands(command)
    add_other_commands(command)
    return top


def seconds(text: str) -> float:
    """The type of an option that is a number of seconds."""
    value = float(text)
    if not 0 < value < math.inf:
        raise ValueError
    return value


def count(text: str) -> int:
    """The type of an option that is a number of things, at least 1."""
    value = int(text)
    if value < 1:
        raise ValueError
    return value


def header(text: str) -> tuple[str, str]:
    """The type of the option NAME:VALUE."""
    name, colon, value = text.partition(":")
    if not (name.strip() and colon):
        raise argparse.ArgumentTypeError(f"{text!r} is not of the form NAME:VALUE")
    return name.strip(), value.strip()


def listening(text: str) -> tuple[str, int]:
    """The type of the option [HOST:]PORT."""
    host, _, port = text.rpartition(":")
    if not re.fullmatch("[0-9]{1,5}", port) or int(port) > 65_535:
        raise argparse.ArgumentTypeError(f"{text!r} is not of the form HOST:PORT")
    return host.strip("[]") or "127.0.0.1", int(port)


def connection_options() -> argparse.ArgumentParser:
    link = argparse.ArgumentParser(add_help=False)
    group = link.add_argument_group("connection")
    group.add_argument("--user", help="a user name for a proxy in front of the server; the password is taken from COLMJURR_PASSWORD or a file")
    group.add_argument("--password-file", metavar="FILE")
    group.add_argument("--ca", metavar="FILE", help="certificate authorities to trust instead of the system's")
    group.add_argument("--cert", metavar="FILE", help="a client certificate")
    group.add_argument("--key", metavar="FILE", help="its key, if it is not in the same file")
    group.add_argument("--header", action="append", default=[], type=header, metavar="NAME:VALUE", help="a header of the handshake")
    group.add_argument("--timeout", type=seconds, default=10.0, metavar="S", help="seconds for dialing and opening the session (10)")
    group.add_argument("--ask-timeout", type=seconds, metavar="S", help="seconds for each request (30; of the exporter 10)")
    group.add_argument("--patience", type=seconds, metavar="S", help=(
        "seconds for which a broken connection is dialed again (60); exporter and bridge dial until they are stopped"))
    return link


def add_store_commands(command: Callable[..., argparse.ArgumentParser]) -> None:
    command("ping", ping, "asks whether the server is there")
    command("spaces", spaces, "lists the dataspaces: URI, when written, when created")
    made = command("get", get, "writes the data of an object")
    made.add_argument("uri")
    made.add_argument("-o", "--output", metavar="FILE", help="write to a file instead of the standard output")
    made.add_argument("--format", default="", help="xml (the default) or json")
    made = command("put", put, "puts an object whose data are the bytes of a file")
    made.add_argument("uri")
    made.add_argument("file")
    made.add_argument("--name", default="", help="the name of the object")
    made.add_argument("--format", default="", help="xml (the default) or json")
    made = command("delete", delete, "removes an object with its arrays")
    made.add_argument("uri")


def add_channel_commands(command: Callable[..., argparse.ArgumentParser]) -> None:
    made = command("channels", channels, "describes channels: name, kind, unit, first and last point, URI")
    made.add_argument("uri", nargs="*")
    made.add_argument("--catalog", metavar="FILE", help="a catalog, or a server's configuration: all its channels")
    made = command("range", range_, "writes the points of a channel: lines INDEX VALUE, which `load` reads back, or CSV")
    made.add_argument("uri")
    made.add_argument("start", nargs="?", help="microseconds or ISO 8601; - for the beginning")
    made.add_argument("end", nargs="?", help="the same; it is included")
    made.add_argument("--csv", action="store_true", help="lines time,NAME; a point without a value, which the other form leaves out, is empty")
    made.add_argument("--microseconds", action="store_true", help="in CSV, numbers instead of times")
    made.add_argument("-o", "--output", metavar="FILE", help="write to a file instead of the standard output")
    made = command("follow", follow, "writes each change of channels as it comes")
    made.add_argument("uri", nargs="+")
    made.add_argument("--from", dest="start", default="now", metavar="START", help="now (the default), first, microseconds or ISO 8601")
    made.add_argument("--latest", type=count, metavar="N", help="begin with the last N points")
    made.add_argument("--resume", choices=["full", "tail", "none"], default="tail", help=(
        "after the connection was lost: begin again with all points, go on after the last one (the default), or end"))
    made.add_argument("--json", action="store_true", help="a JSON object in each line, for programs")
    made = command("load", load, "loads points into a channel from lines INDEX VALUE, or CSV")
    made.add_argument("uri")
    made.add_argument("file", nargs="?", help="a file; without one the standard input, as it comes")
    made.add_argument("--every", type=seconds, default=0.2, metavar="S", help="seconds after which points of the input are sent (0.2)")
    made.add_argument("--most", type=count, default=1000, metavar="N", help="how many points are sent at the latest (1000)")
    made.add_argument("--csv", action="store_true", help="a line of heads, and then time and value in the first two columns")
    made.add_argument("--skip-known", action="store_true", help="leave out points up to the channel's last one")
    made = command("plot", plot, "draws channels as a log, time or depth down the page")
    made.add_argument("uri", nargs="+")
    made.add_argument("-o", "--output", required=True, metavar="FILE", help="a file whose ending says its form: .png, .svg, .pdf")
    made.add_argument("--from", dest="start", metavar="START", help="microseconds or ISO 8601")
    made.add_argument("--to", dest="end", metavar="END")
    made.add_argument("--depth", metavar="URI", help="a channel of depths, down the page instead of time")
    made.add_argument("--dpi", type=count, default=120)


def add_other_commands(command: Callable[..., argparse.ArgumentParser]) -> None:
    made = command("check-config", check_config, "says what a server refuses in a configuration, with line and key", has_url=False)
    made.add_argument("file")
    made = command("catalog", catalog_, "writes the channels of a configuration as JSON", has_url=False)
    made.add_argument("file")
    made.add_argument("-o", "--output", metavar="FILE", help="write to a file instead of the standard output")
    made = command("journal", journal_ls, "lists or exports a server's saved journal, without a server", has_url=False)
    add_journal_commands(made.add_subparsers(required=True, metavar="ls|export", parser_class=Parser))
    made = command("exporter", exporter, "serves /metrics and /health of a server, of which it takes one session")
    made.add_argument("--catalog", metavar="FILE", help="a catalog, or a server's configuration: its channels are followed, at most 256")
    made.add_argument("--channel", action="append", default=[], metavar="URI")
    made.add_argument("--listen", type=listening, default=("127.0.0.1", 9777), metavar="HOST:PORT", help="where it answers (127.0.0.1:9777)")
    made.add_argument("--every", type=seconds, default=5.0, metavar="S", help="seconds between pings (5)")
    made = command("bridge", bridge, "writes every change of channels into Redis streams")
    made.add_argument("--store", action="append", required=True, metavar="URL=CATALOG", help="a server, and its catalog or configuration")
    made.add_argument("--redis", default="redis://127.0.0.1:6379/0", metavar="URL")
    made.add_argument("--prefix", default="etp", help="what the names of the streams begin with (etp)")
    made = command("copy", copy_, "copies dataspaces, objects, arrays and channels into another store, and reads them back")
    made.add_argument("source", metavar="FROM")
    made.add_argument("target", metavar="TO")
    made.add_argument("--catalog", metavar="FILE", help="a catalog, or a server's configuration: its channels are copied")
    made.add_argument("--channel", action="append", default=[], metavar="URI")
    made.add_argument("--objects", metavar="FILE", help="lines with an object's URI and then, each after a tab, the paths of its arrays")
    made = command("conformance", conformance_, "plays recorded sessions and lists the answers that differ")
    made.add_argument("places", nargs="*", metavar="URL|SAMPLES", help=(
        "the address of a server without a history, and captures NAME.cap beside NAME.answers.cap or folders of them; "
        "in the repository docs/samples is the default"))
    made.add_argument("--restart", metavar="COMMAND", help=(
        "run before each sample, with the path of its configuration as the last word: it ends the server at the address, starts it again "
        "without a history, and returns"))
    made.add_argument("--etpd", metavar="PROGRAM", help="the program of a server, called as PROGRAM CONFIG ADDRESS: each sample gets a fresh one")
    made.add_argument("--settings", metavar="FILE", help="a configuration for samples that have none of their own")
    made.add_argument("--most", type=count, default=5, metavar="N", help="how many differences of a sample are shown (5)")


def add_journal_commands(commands: Any) -> None:
    for name, run, text in (
            ("ls", journal_ls, "lists the entries: number, first byte, bytes, moment, session, kind, what it touches; and says where they end"),
            ("export", journal_export, "writes the entries, one a line of JSON, or the points of a channel as CSV")):
        made = commands.add_parser(name, help=text, description=text[:1].upper() + text[1:] + ".")
        made.set_defaults(run=run)
        made.add_argument("file")
        made.add_argument("--config", metavar="FILE", help="the server's configuration: the journal has to be of its instance, and channels are named by it")
        if name == "ls":
            made.add_argument("--all", action="store_true", help=f"list all that an entry touches, and not the first {SHOWN}")
        else:
            made.add_argument("--csv", metavar="CHANNEL", help="lines time,NAME of the points that the channel has at the end; a number, or with --config a URI")
            made.add_argument("--microseconds", action="store_true", help="in CSV, numbers instead of times")
            made.add_argument("-o", "--output", metavar="FILE", help="write to a file instead of the standard output")


def status_of(error: Exception) -> int:
    kinds = (
        ((Difference,), DIFFERS), ((Stopped,), STOPPED), ((Refused, SomeRefused), REFUSED), ((ConfigError,), CONFIG),
        ((DialError, HandshakeError, TimeLimit), LINK), ((WireError, LinkError), PEER), ((InputError, ValueRefused, StreamError, JournalError), INPUT),
        ((ImportError,), USAGE), ((OSError,), FILE),
    )
    return next((status for classes, status in kinds if isinstance(error, classes)), PEER)


def cause_of(error: Exception) -> str:
    if isinstance(error, ConfigError):
        return error.shown()
    if isinstance(error, ImportError):
        return f"this command needs the package {error.name or error}, which is not installed"
    return f"colmjurr: {error}"


def main(words: Optional[list[str]] = None) -> None:
    """Runs the command of these words, by default those of the command line, and exits with its status."""
    found = parser().parse_args(words)
    try:
        found.run(found)
        sys.stdout.flush()
    except KeyboardInterrupt:
        sys.exit(130)
    except BrokenPipeError:
        os.dup2(os.open(os.devnull, os.O_WRONLY), sys.stdout.fileno())
        sys.exit(FILE)
    except (EtpError, InputError, OSError, ImportError) as error:
        say(cause_of(error))
        sys.exit(status_of(error))
