"""Metrics and health of a server, seen from outside: `/metrics` in Prometheus' text format, and `/health` with 200 or 503.

The exporter takes one of the server's sessions, pings the server every few seconds, and follows at most 256 channels. What only the
server knows (the length of its journal, its memory, its sessions) is not exported.
"""
from __future__ import annotations

import asyncio
import collections
import time
from typing import Any, Iterable, Optional

from . import aio
from .errors import EtpError, LinkLost, Stopped, ValueRefused
from .watching import Append, Change, Replace, Watch

MOST_CHANNELS = 256
# Seconds between pings, and before a failed connection is tried again.
EVERY, PAUSE = 5.0, 2.0
_REQUEST_LIMIT, _REQUEST_SECONDS = 16_384, 10.0


class Exporter:
    """Follows a server and answers HTTP. `channels` are the URIs of the channels to follow; raises `ValueRefused` if there are more than
    256. `every` is the number of seconds between pings. `how` goes to `colmjurr.aio.connect`."""

    def __init__(self, url: str, channels: Iterable[str] = (), every: float = EVERY, **how: Any):
        self.url, self.uris, self.every, self.how = url, list(channels), every, how
        if len(self.uris) > MOST_CHANNELS:
            raise ValueRefused(f"{len(self.uris)} channels are more than the {MOST_CHANNELS} that an exporter follows")
        self.is_up = False
        self.ping = 0.0
        self.opened_at: Optional[float] = None
        self.connects = 0
        self.names: dict[str, str] = {}
        self.last: dict[str, int] = {}
        self.points: collections.Counter = collections.Counter()
        self.replacements: collections.Counter = collections.Counter()
        self.stops: collections.Counter = collections.Counter()
        self.problem = "not connected yet"

    # -- following

    async def follow(self) -> None:
        """Connects, and connects again after each failure, until it is cancelled."""
        while True:
            try:
                await self._session()
            except (EtpError, ConnectionError) as error:
                self.problem = str(error)
            self.is_up, self.opened_at = False, None
            await asyncio.sleep(min(PAUSE, self.every))

    async def _session(self) -> None:
        how: dict[str, Any] = {"timeout": 10.0, "ask_timeout": 10.0, "application": "colmjurr exporter", **self.how, "patience": 0.0}
        async with aio.connect(self.url, **how) as store:
            self.connects += 1
            self.opened_at = time.time()
            watch = await self._watch(store)
            told = asyncio.create_task(self._take_all(watch)) if watch else None
            try:
                while told is None or not told.done():
                    self.ping = await store.ping()
                    self.is_up, self.problem = True, ""
                    if told is None:
                        await asyncio.sleep(self.every)
                    else:
                        await asyncio.wait({told}, timeout=self.every)
                told.result()
            finally:
                if told is not None:
                    told.cancel()
                    await asyncio.gather(told, return_exceptions=True)

    async def _watch(self, store: aio.Store) -> Optional[Watch]:
        if not self.uris:
            return None
        channels = await store.channels(self.uris)
        for channel in channels:
            self.names[channel.uri] = channel.name
            if channel.last is not None:
                self.last[channel.uri] = channel.last
        watch = store.watch(channels, start="now", resume=None)
        await watch.begin()
        return watch

    async def _take_all(self, watch: Watch) -> None:
        try:
            async for change in watch:
                await self._take(change)
        except Stopped as error:
            self.stops[error.reason.split(" ")[0]] += 1
            raise
        except LinkLost:
            self.stops["link"] += 1
            raise

    async def _take(self, change: Change) -> None:
        uri = change.channel.uri
        if isinstance(change, Append):
            self.points[uri] += len(change.points)
            self.last[uri] = int(change.points.indexes[-1])
            return
        self.replacements[uri] += isinstance(change, Replace)
        # the newest point may have been removed
        await change.channel.refresh()
        if change.channel.last is None:
            self.last.pop(uri, None)
        else:
            self.last[uri] = change.channel.last

    # -- answering

    def metrics(self) -> str:
        """The metrics in Prometheus' text format."""
        lines: list[str] = []
        self._add(lines, "etp_up", "gauge", "Whether the server answers.", [({}, int(self.is_up))])
        self._add(lines, "etp_ping_seconds", "gauge", "How long the last answer to a Ping took.", [({}, self.ping)] if self.is_up else [])
        age: list = [({}, time.time() - self.opened_at)] if self.opened_at is not None else []
        self._add(lines, "etp_session_age_seconds", "gauge", "How long the exporter's session has been open.", age)
        label = lambda uri: {"channel": self.names.get(uri, uri), "uri": uri}
        self._add(
            lines, "etp_channel_last_index_seconds", "gauge", "The index of a channel's newest point, in seconds since 1970-01-01 UTC.",
            [(label(uri), index / 1e6) for uri, index in sorted(self.last.items())])
        known = sorted(self.names)
        self._add(
            lines, "etp_channel_points_total", "counter", "Points that were appended since the exporter started.",
            [(label(uri), self.points[uri]) for uri in known])
        self._add(
            lines, "etp_channel_replacements_total", "counter", "Ranges that were replaced since the exporter started.",
            [(label(uri), self.replacements[uri]) for uri in known])
        self._add(
            lines, "etp_subscription_stops_total", "counter", "Subscriptions that ended, by the reason.",
            [({"reason": reason}, count) for reason, count in sorted(self.stops.items())])
        self._add(
            lines, "etp_reconnects_total", "counter", "Sessions that were opened after the first.", [({}, max(0, self.connects - 1))])
        return "\n".join(lines) + "\n"

    @staticmethod
    def _add(lines: list[str], name: str, kind: str, text: str, values: list[tuple[dict[str, str], Any]]) -> None:
        lines += [f"# HELP {name} {text}", f"# TYPE {name} {kind}"]
        for labels, value in values:
            inner = ",".join(f'{label}="{_escaped(each)}"' for label, each in labels.items())
            lines.append(f"{name}{'{' + inner + '}' if inner else ''} {value}")

    async def answer(self, reader: asyncio.StreamReader, writer: asyncio.StreamWriter) -> None:
        """Answers one HTTP request, and closes the connection."""
        try:
            async with asyncio.timeout(_REQUEST_SECONDS):
                head = await reader.readuntil(b"\r\n\r\n")
            words = head.split(b"\r\n", 1)[0].decode("latin-1").split(" ")
            status, kind, body = self._page(words)
            raw = body.encode()
            writer.write((
                f"HTTP/1.1 {status}\r\nContent-Type: {kind}; charset=utf-8\r\nContent-Length: {len(raw)}\r\nConnection: close\r\n\r\n").encode())
            writer.write(b"" if words[0] == "HEAD" else raw)
            async with asyncio.timeout(_REQUEST_SECONDS):
                await writer.drain()
        except (asyncio.IncompleteReadError, asyncio.LimitOverrunError, TimeoutError, ConnectionError, ValueError):
            pass
        finally:
            writer.close()

    def _page(self, words: list[str]) -> tuple[str, str, str]:
        if len(words) != 3 or words[0] not in ("GET", "HEAD"):
            return "400 Bad Request", "text/plain", "GET /metrics or GET /health\n"
        path = words[1].split("?")[0]
        if path == "/metrics":
            return "200 OK", "text/plain; version=0.0.4", self.metrics()
        if path == "/health":
            return ("200 OK", "text/plain", "up\n") if self.is_up else ("503 Service Unavailable", "text/plain", f"down: {self.problem}\n")
        return "404 Not Found", "text/plain", "/metrics and /health\n"

    async def serve(self, host: str = "127.0.0.1", port: int = 9777, ready: Optional[Any] = None) -> None:
        """Follows the server and answers HTTP until it is cancelled. `ready` is called with the port as soon as it listens."""
        server = await asyncio.start_server(self.answer, host, port, limit=_REQUEST_LIMIT)
        if ready:
            ready(server.sockets[0].getsockname()[1])
        following = asyncio.create_task(self.follow())
        try:
            await asyncio.gather(following, server.serve_forever())
        finally:
            following.cancel()
            server.close()


def _escaped(text: str) -> str:
    return text.replace("\\", "\\\\").replace('"', '\\"').replace("\n", "\\n")
