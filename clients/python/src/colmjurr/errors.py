"""The errors of this package, one class for each kind of failure. All of them are `EtpError`s."""
from __future__ import annotations

from typing import Optional

# The texts of the codes with which a server refuses a request.
CODES = {
    2: "no supported protocols", 3: "invalid message type", 4: "unsupported protocol", 5: "invalid argument", 6: "request denied",
    8: "invalid state", 9: "invalid URI", 11: "not found", 12: "limit exceeded", 13: "compression not supported",
    15: "too many transactions", 16: "data object type not supported", 17: "size exceeded", 19: "invalid message",
    20: "invalid index kind", 21: "no supported formats", 31: "invalid append",
}

# What the cause of a `WireError` says of the item at its offset.
CAUSES = {
    "short": "the message ends inside it", "number": "a number of more than ten bytes or 64 bits", "range": "an int of more than 32 bits",
    "boolean": "a boolean that is neither 0 nor 1", "branch": "no branch or symbol has this number", "utf8": "a text that is not UTF-8",
    "length": "a negative length", "blocksize": "a block whose items do not fill it", "doublekey": "a name that its map already has",
    "limit": "one value too many", "rest": "bytes after the body", "extension": "a header extension", "compressed": "a compressed body",
    "index": "a point whose index is not one long", "protocol": "no such protocol", "message type": "not a message that a server sends",
}


class EtpError(Exception):
    """The base of all errors of this package."""


class WireError(EtpError):
    """Malformed bytes from the server. `cause` is one of the profile's words for it, `offset` is where the refused item begins in the
    message, and `part` is the part of the message that it belongs to."""

    def __init__(self, cause: str, offset: int, part: str = "body"):
        super().__init__(f"{part} {cause} {offset}: {CAUSES.get(cause, cause)}")
        self.cause, self.offset, self.part = cause, offset, part


class ValueRefused(EtpError, ValueError):
    """A value that can't be sent, found before anything was sent: a number out of range, a value of another type, an index that does not
    rise, a malformed address."""


class LinkError(EtpError, ConnectionError):
    """The connection to the server can't be made, or is lost. `may_pass` says whether another attempt may succeed: if it may, a store whose
    connection was lost dials again until its `patience` is used up."""

    may_pass = True


class DialError(LinkError):
    """There is no connection: the host is unknown, nothing listens at the port, or the certificate is not trusted."""

    def __init__(self, cause: str, may_pass: bool = True):
        super().__init__(cause)
        self.may_pass = may_pass


class HandshakeError(LinkError):
    """The peer did not complete the WebSocket handshake. `status` is its HTTP status, or 0 if it sent none."""

    def __init__(self, cause: str, status: int = 0):
        super().__init__(cause)
        self.status = status
        # without an answer, or with one of a proxy whose server is away or busy
        self.may_pass = status in (0, 429, 502, 503, 504)


class LinkLost(LinkError):
    """The connection was lost or closed. It is not known whether a request that was under way was done. `code` is the status of the
    WebSocket's Close frame, or 1006 if there was none."""

    def __init__(self, cause: str, code: int = 1006):
        super().__init__(cause)
        self.code = code


class TimeLimit(LinkLost, TimeoutError):
    """Nothing arrived within the time limit."""


class PeerError(LinkLost):
    """The server broke the protocol: an id that does not rise, a part out of order, a text message."""

    may_pass = False


class Refused(EtpError):
    """The server refused a request or one of its keys, with a code and its text.

    `key` names the refused item if the request had several. `first_index`, in microseconds, is the index of the first point of a
    message of points that was refused; none of that message's points are in the channel."""

    def __init__(self, code: int, text: str = "", key: Optional[str] = None, first_index: Optional[int] = None):
        text = text or CODES.get(code, "unknown code")
        place = f" of {key!r}" if key is not None else "" if first_index is None else f", the points from index {first_index} on"
        super().__init__(f"refused {code}{place}: {text}")
        self.code, self.text, self.key, self.first_index = code, text, key, first_index


class NotFound(Refused):
    """Refused with 11: the dataspace, object, array or channel does not exist."""


class LimitExceeded(Refused):
    """Refused with 12: a limit of the server is reached. For a write this usually means that the server's journal is full."""


class SomeRefused(EtpError):
    """Items of a request were refused. `refused` has the error of each by its key, `granted` those that were done."""

    def __init__(self, refused: dict[str, Refused], granted: dict):
        super().__init__(f"{len(refused)} of {len(refused) + len(granted)} items refused: {next(iter(refused.values()))}")
        self.refused, self.granted = refused, granted


class CommitFailed(EtpError):
    """A transaction was not committed, and nothing of it is in the store. `reason` is the server's text."""

    def __init__(self, reason: str):
        super().__init__(f"not committed: {reason}")
        self.reason = reason


class Conflict(CommitFailed):
    """Another session changed something that the transaction had used. `place` is the number of the journal's first such entry."""

    def __init__(self, reason: str, place: int):
        super().__init__(reason)
        self.place = place


class Stopped(EtpError):
    """The server ended the subscriptions, with a reason such as `lagged 70000`."""

    def __init__(self, reason: str):
        super().__init__(f"subscriptions stopped: {reason}")
        self.reason = reason


class ConfigError(EtpError):
    """A server's configuration is refused. `line` counts from 1 (0: no line), `key` is the name of the key, and `number` and `channel` are
    the numbers by which the server names it. `path` is the file, if the configuration was read from one."""

    def __init__(self, cause: str, line: int = 0, key: str = "", number: int = 0, channel: int = 0):
        place = f"line {line}: " if line else ""
        super().__init__(f"{place}{key + ': ' if key else ''}{cause}")
        self.cause, self.line, self.key, self.number, self.channel = cause, line, key, number, channel
        self.path = ""

    def shown(self) -> str:
        """The error with the file's path, if it is known, in the form `PATH:LINE: KEY: CAUSE`."""
        place = ":".join(each for each in (self.path, str(self.line) if self.line else "") if each)
        numbers = f" (key {self.number} of channel {self.channel})" if self.number else ""
        return f"{place + ': ' if place else ''}{self.key + ': ' if self.key else ''}{self.cause}{numbers}"


class JournalError(EtpError):
    """A file is not a journal, or is damaged. `cause` is `magic` (not a journal), `instance` (that of another instance) or `entry` (there is
    no entry at a gate that says so), and `offset` the place in the file: for `entry` that of the gate. What stands before it is good."""

    def __init__(self, text: str, cause: str, offset: int):
        super().__init__(text)
        self.cause, self.offset = cause, offset


def refusal(code: int, text: str = "", key: Optional[str] = None, first_index: Optional[int] = None) -> Refused:
    """The error of a code."""
    kind = {11: NotFound, 12: LimitExceeded}.get(code, Refused)
    return kind(code, text, key, first_index)
