#!/usr/bin/env python3
"""How long a million points take, from a server into a DataFrame and from arrays into a server.

    python3 speed.py                  against a peer that sends prepared answers and ignores what it is sent: the client's own share
    python3 speed.py ETPD             against a built server
    python3 speed.py ETPD --strict    the same, and ends with 1 if a time is above its aim

It prints the seconds on the clock and the seconds of the client's processor: the best of three runs, or of as many as are done in 20 s, and
of one run where a server is loaded, which takes each point once. The aims are less than 2 s on the clock for reading and 3 s for loading.
"""
import asyncio
import multiprocessing
import sys
import time

import support
import outside_server
import wire
from colmjurr import channel_data, codec
import colmjurr
import numpy
import pandas  # noqa: F401  so that the first table does not wait for it

COUNT, LOT = 1_000_000, 500_000
READ_AIM, LOAD_AIM = 2.0, 3.0
BEGIN, STEP = 1_796_083_200_000_000, 100_000
INDEXES = BEGIN + numpy.arange(COUNT) * STEP
VALUES = numpy.random.default_rng(1).random(COUNT)
KIND = dict(uri=support.channel_uri(0), name="rop", kind="double", uom="m/h")


def spoken(protocol, kind, number, correlation, flags, body):
    return codec.write_header(codec.Header(protocol, kind, correlation, number, flags)) + body


def record(last):
    machine = outside_server.transactions.Server([KIND], 65_536, 4_194_304, None)
    if last is not None:
        machine.store.channels[0]["points"] = [(BEGIN, {"item": (5, 0)}), (last, {"item": (5, 0)})]
    return machine.make_session(machine, 1).metadata(0)


class Canned:
    """A peer that knows one channel, whose points it has as bytes."""

    def __init__(self):
        self.lots = [channel_data.write_items(0, "double", INDEXES[at:at + LOT], VALUES[at:at + LOT]) for at in range(0, COUNT, LOT)]

    async def serve(self, reader, writer):
        await outside_server.shake_hands(reader, writer)
        machine = outside_server.transactions.Server([KIND], 65_536, 4_194_304, None)
        session = machine.make_session(machine, 1)
        while (data := await outside_server.read_client_message(reader, writer)) is not None:
            header, body, at = codec.read_header(data, "C")
            for message in self.answers(session, header, body.name, data, at):
                writer.write(outside_server.server_frame(2, message))
            await writer.drain()

    def answers(self, session, header, name, data, at):
        number = session.next_id
        session.next_id += 2
        reply = lambda protocol, kind, value: [wire.write_message(
            dict(protocol=protocol, messageType=kind, correlationId=header.id, messageId=number, messageFlags=2), wire.BODIES[protocol, kind, "S"], value)]
        match name:
            case "RequestSession":
                session.server.sent = []
                session.next_id = 1
                session.take(0, data)
                return session.server.sent
            case "Ping":
                return reply(0, 9, {"currentDateTime": 0})
            case "GetChannelMetadata":
                return reply(21, 2, {"metadata": {"0": record(int(INDEXES[-1]))}})
            case "OpenChannels":
                return reply(22, 2, {"channels": {"0": {"metadata": record(None), "preferRealtime": True, "dataChanges": True}}})
            case "GetRanges":
                session.next_id += 2 * len(self.lots)
                return [spoken(21, 10, number + 2 * place, header.id, 2 if place == len(self.lots) - 1 else 0, lot) for place, lot in enumerate(self.lots)]
        return []


def run_canned(pipe):
    async def run():
        server = await asyncio.start_server(Canned().serve, "127.0.0.1", 0, limit=1 << 20)
        pipe.send(server.sockets[0].getsockname()[1])
        await server.serve_forever()

    asyncio.run(run())


def timed(what, action, times=3, aim=None):
    clock, processor, result = [], [], None
    for _ in range(times):
        begun, used = time.perf_counter(), time.process_time()
        result = action()
        clock.append(time.perf_counter() - begun)
        processor.append(time.process_time() - used)
        if sum(clock) > 20:
            break
    judged = "" if aim is None else f"; the aim of less than {aim:g} s is {'met' if min(clock) < aim else 'missed'}"
    print(f"{what}: {min(clock):.2f} s, of the client's processor {min(processor):.2f} s{judged}", flush=True)
    return result, min(clock), min(processor)


def read(url, aim=None):
    with colmjurr.connect(url, ask_timeout=300 * support.PATIENCE) as store:
        channel = store.channel(KIND["uri"])
        frame, clock, processor = timed("a million points into a DataFrame", lambda: channel.range().to_pandas(), aim=aim)
        assert len(frame) == COUNT and (frame["rop"].values == VALUES).all(), "other points"
        assert frame.index[-1].value == int(INDEXES[-1]) * 1000, "other times"
    return clock, processor


def load(url, times, aim=None):
    with colmjurr.connect(url, ask_timeout=300 * support.PATIENCE) as store:
        channel = store.channel(KIND["uri"])
        loaded, clock, processor = timed("a million points loaded", lambda: channel.load(INDEXES, VALUES), times, aim)
        assert loaded == COUNT
    return clock, processor


def measure_canned():
    """Clock and processor of reading and of loading, against the peer with prepared answers."""
    here, there = multiprocessing.Pipe()
    peer = multiprocessing.Process(target=run_canned, args=(there,), daemon=True)
    peer.start()
    try:
        url = f"ws://127.0.0.1:{here.recv()}/"
        return read(url), load(url, 3)
    finally:
        peer.kill()
        peer.join()


def main():
    if len(sys.argv) == 1:
        measure_canned()
        return
    server = support.RealServer(sys.argv[1], channels=[KIND])
    try:
        loaded, _ = load(server.url, 1, LOAD_AIM)
        came, _ = read(server.url, READ_AIM)
    finally:
        server.close()
    if sys.argv[2:] == ["--strict"] and not (loaded < LOAD_AIM and came < READ_AIM):
        sys.exit(1)


if __name__ == "__main__":
    main()
