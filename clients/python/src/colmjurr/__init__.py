"""A client of the well data store: dataspaces, objects, arrays, transactions, and channels to read, load and watch.

    import colmjurr

    with colmjurr.connect("ws://127.0.0.1:8080/") as store:
        channel = store.channel("eml:///witsml21.Channel(00000000-0000-0000-0000-000000000001)")
        channel.range("2026-12-01", None).to_pandas()

`connect` is for scripts and notebooks; `colmjurr.aio.connect` has the same names for asyncio. This profile of the Energistics
Transfer Protocol is not the published ETP 1.2. Moments and indexes are microseconds since 1970-01-01 UTC.
"""
from . import aio
from .errors import (
    CommitFailed, ConfigError, Conflict, DialError, EtpError, HandshakeError, JournalError, LimitExceeded, LinkError, LinkLost, NotFound,
    PeerError, Refused, SomeRefused, Stopped, TimeLimit, ValueRefused, WireError,
)
from .points import Points, index_of, time_of
from .progress import Bar
from .several import several
from .store import DataObject, ServerInfo, Space
from .sync import connect
from .uris import object_uri, space_uri
from .version import VERSION as __version__
from .watching import Append, Change, Copy, Gap, Replace, Restarted, Truncate

__all__ = [
    "Append", "Bar", "Change", "CommitFailed", "ConfigError", "Conflict", "Copy", "DataObject", "DialError", "EtpError", "Gap", "HandshakeError",
    "JournalError", "LimitExceeded", "LinkError", "LinkLost", "NotFound", "PeerError", "Points", "Refused", "Replace", "Restarted", "ServerInfo",
    "SomeRefused", "Space", "Stopped", "TimeLimit", "Truncate", "ValueRefused", "WireError", "__version__", "aio", "connect",
    "index_of", "object_uri", "several", "space_uri", "time_of",
]
