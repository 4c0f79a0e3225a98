"""Plays recorded sessions against a running server, and compares its answers with the recorded ones.

A sample is a capture NAME.cap of what clients send, beside NAME.answers.cap with the answers that a server has to give. The configuration
of its server is NAME.toml; or else the file in the sample's row `| [NAME.cap](..) | FILE.toml |` of a document in the folder or the one
above; or else server.toml. A capture begins with `ETPCAP01`. Each frame has its kind, the tag of its session, a moment, a length and a
message, and each tag is a connection of its own. Answers may differ in message ids, in the identifiers of sessions and transactions, and
in moments. Notices may arrive earlier or later among the replies, since a live server sends them when it can.
"""
from __future__ import annotations

import asyncio
import re
import struct
from pathlib import Path
from typing import Any, Iterator, NamedTuple, Optional

from . import codec, websocket
from .errors import EtpError, LinkLost, ValueRefused, WireError

MAGIC = b"ETPCAP01"
MESSAGE, POLL, END, ANSWER, ENDED = 1, 2, 3, 17, 19
_HEAD = struct.Struct(">BIqI")
_LONGEST = 33_554_432
# The fields that differ from run to run.
LOOSE = {
    "currentDateTime", "sessionId", "transactionUuid", "storeLastWrite", "storeCreated", "changeTime", "channelChangeTime",
    "channelsTruncatedTime",
}


class Frame(NamedTuple):
    """A frame of a capture; `moment` is in microseconds since 1970-01-01 UTC."""

    kind: int
    tag: int
    moment: int
    data: bytes


def read_capture(data: bytes) -> Iterator[Frame]:
    """The frames of a capture. Raises `ValueRefused` with the offset of the first malformed frame."""
    if data[:8] != MAGIC:
        raise ValueRefused("not a capture: it does not begin with ETPCAP01")
    at = 8
    while at < len(data):
        if at + _HEAD.size > len(data):
            raise ValueRefused(f"the capture ends in the frame at {at}")
        kind, tag, moment, size = _HEAD.unpack_from(data, at)
        start = at + _HEAD.size
        if kind not in (MESSAGE, POLL, END, ANSWER, ENDED) or size > _LONGEST or start + size > len(data):
            raise ValueRefused(f"a malformed frame at {at}")
        yield Frame(kind, tag, moment, data[start:start + size])
        at = start + size


class Difference(NamedTuple):
    """An answer that differs: the tag, the place among its replies or notices, what was recorded, and what arrived."""

    tag: int
    place: str
    wanted: str
    came: str


class _Tag:
    """A session of the sample: its connection, and what has arrived."""

    def __init__(self, link: websocket.WebSocket):
        self.link = link
        self.came: list[bytes] = []
        self.more = asyncio.Event()
        self.task = asyncio.create_task(self._read())

    async def _read(self) -> None:
        try:
            while True:
                self.came.append(await self.link.recv())
                self.more.set()
        except LinkLost:
            self.more.set()

    async def wait_for(self, count: int, patience: float) -> None:
        """Returns when so many messages have arrived, the server has said goodbye, or `patience` seconds have passed."""
        try:
            async with asyncio.timeout(patience):
                while len(self.came) < count and not self.task.done():
                    self.more.clear()
                    await self.more.wait()
        except TimeoutError:
            pass


async def play(url: str, sample: bytes, answers: bytes, patience: float = 3.0, **how: Any) -> list[Difference]:
    """Plays a sample against a server without a history, and returns the answers that differ. For each answer that does not arrive it waits
    `patience` seconds. `how` may have `headers`, `ca`, `cert` and `timeout` for the connections."""
    recorded = [frame for frame in read_capture(answers)]
    settings: dict[str, Any] = {"headers": {}, **how}
    tags: dict[int, _Tag] = {}
    wanted: dict[int, list[bytes]] = {}
    place = 0
    try:
        for frame in read_capture(sample):
            if frame.tag not in tags:
                tags[frame.tag] = _Tag(await websocket.connect(url, **settings))
                wanted[frame.tag] = []
            tag = tags[frame.tag]
            await _give(tag, frame)
            while place < len(recorded) and (recorded[place].tag, recorded[place].moment) == (frame.tag, frame.moment):
                if recorded[place].kind == ANSWER:
                    wanted[frame.tag].append(recorded[place].data)
                place += 1
            await tag.wait_for(len(wanted[frame.tag]), patience)
        return [each for number, tag in tags.items() for each in compare(number, wanted[number], tag.came)]
    finally:
        for tag in tags.values():
            tag.link.abort()
            tag.task.cancel()
        await asyncio.gather(*(tag.task for tag in tags.values()), return_exceptions=True)


async def _give(tag: _Tag, frame: Frame) -> None:
    """Does to the connection what the frame of the sample says. Polls are left out, since a live server polls by itself."""
    try:
        if frame.kind == MESSAGE:
            tag.link.post(frame.data)
            await tag.link.drain()
        elif frame.kind == END:
            tag.link.start_close()
    except LinkLost:
        pass


def compare(tag: int, wanted: list[bytes], came: list[bytes]) -> list[Difference]:
    """The messages of a tag that differ, replies and notices each in their order."""
    found = []
    for name, is_notice in (("reply", False), ("notice", True)):
        left = [shown(each) for each in wanted if _is_notice(each) == is_notice]
        right = [shown(each) for each in came if _is_notice(each) == is_notice]
        for place in range(max(len(left), len(right))):
            one = left[place] if place < len(left) else "nothing"
            other = right[place] if place < len(right) else "nothing"
            if one != other:
                found.append(Difference(tag, f"{name} {place + 1}", one, other))
    return found


def _is_notice(data: bytes) -> bool:
    try:
        header, body, _ = codec.read_header(data)
        return header.correlation == 0 and body.name != "ProtocolException"
    except WireError:
        return False


def shown(data: bytes) -> str:
    """A message as a text, without what differs from run to run."""
    try:
        header, body, value = codec.read_message(data)
    except WireError as error:
        return f"{data.hex()}: {error}"
    return f"{body.name} c={header.correlation} f={header.flags} {_bare(value)}"


def _bare(value: Any, name: str = "") -> Any:
    if name in LOOSE:
        return "*"
    if isinstance(value, dict):
        return {key: _bare(each, key) for key, each in value.items()}
    if isinstance(value, list):
        return [_bare(each) for each in value]
    if isinstance(value, tuple):
        return value[0], _bare(value[1])
    return value.hex() if isinstance(value, bytes) else value


def shipped_samples() -> Optional[Path]:
    """The folder of the samples that are shipped with the server, if the package is used from the repository."""
    folder = Path(__file__).resolve().parents[4] / "docs" / "samples"
    return folder if folder.is_dir() else None


def samples_in(folder: Path) -> list[tuple[Path, Path, Optional[Path]]]:
    """The samples of a folder: the capture, the answers, and the configuration if there is one."""
    found = []
    told = settings_told(folder)
    for path in sorted(folder.glob("*.cap")):
        answers = path.with_name(path.name[:-4] + ".answers.cap")
        if not path.name.endswith(".answers.cap") and answers.exists():
            choices = (path.with_suffix(".toml"), folder / told.get(path.name, path.name), folder / "server.toml")
            settings = next((each for each in choices if each.suffix == ".toml" and each.exists()), None)
            found.append((path, answers, settings))
    return found


def settings_told(folder: Path) -> dict[str, str]:
    """The configurations of samples, as the tables of documents in the folder and the one above name them."""
    row = re.compile(r"\[(\w+\.cap)\]\([^)]*\) *\| *(\w+\.toml)")
    texts = [path.read_text(encoding="utf-8") for place in (folder, folder.parent) for path in sorted(place.glob("*.md"))]
    return {match[1]: match[2] for text in texts for match in row.finditer(text)}


def play_file(url: str, path: Path, answers: Path, **how: Any) -> list[Difference]:
    """Plays one sample from its files. Raises `ValueRefused` if one can't be read."""
    try:
        return asyncio.run(play(url, path.read_bytes(), answers.read_bytes(), **how))
    except OSError as error:
        raise error if isinstance(error, EtpError) else ValueRefused(f"{path}: {error}") from None
