#!/usr/bin/env python3
"""Runs of the client for the program `check_ctl`, and what each writes, answers and sends.

    python3 check_ctl.py ../crates/check_ctl

writes its input and its expected output. The bytes are those of `wire.py`; what the server of a link answers is what a session of two
channels answers to the same requests (`row_captures.py` has such answers). What the client does is listed run by run.
"""
import pathlib
import struct
import sys
import uuid

from row_captures import BODIES, INSTANCE, NONE, PUT, Script, channel, data_object, interval, item, long_index, metadata, opened, put_objects, well
from wire import write_message

LOWEST, GREATEST = -2 ** 62, 2 ** 62
SHOWN = 600
PROTOCOLS = (4, 9, 18, 21, 22, 24)


def bits32(value):
    """A float as a value of a channel."""
    return 4, struct.unpack("<I", struct.pack("<f", value))[0]


def bits64(value):
    """The same for a double."""
    return 5, struct.unpack("<Q", struct.pack("<d", value))[0]


def shown(data):
    """A message, or its front and its length."""
    return data.hex().upper() if len(data) <= SHOWN else f"{data[:SHOWN].hex().upper()}.. of {len(data)}"


class Talk(Script):
    """What the client sends, from the moment 7 on, and what comes."""

    def __init__(self):
        super().__init__()
        self.clock[0] = 6
        self.sent, self.coming = [], []

    def frame(self, kind, payload=b""):
        (self.sent if kind == 1 else self.coming).append(payload)
        return payload

    def say(self, protocol, kind, value, flags=2, correlation=0):
        """Only what has a moment takes one here; the others take theirs as the client's clock tells it."""
        return super().say(protocol, kind, value, flags, correlation)

    def begin(self):
        version = dict(major=1, minor=2, revision=0, patch=0)
        supported = [dict(protocol=number, protocolVersion=version, role="store", protocolCapabilities={}) for number in PROTOCOLS]
        asked = self.say(0, 1, dict(
            applicationName="etpctl", applicationVersion="1", clientInstanceId=bytes(16), requestedProtocols=supported, supportedDataObjects=[],
            supportedCompression=[], supportedFormats=["xml", "json"], currentDateTime=self.moment + 1, earliestRetainedChangeTime=0,
            serverAuthorizationRequired=False, endpointCapabilities={}))
        self.hear(0, 2, asked, dict(
            applicationName="wd", applicationVersion="1", serverInstanceId=INSTANCE.bytes, supportedProtocols=supported, supportedDataObjects=[],
            supportedCompression="", supportedFormats=["xml"], currentDateTime=1, earliestRetainedChangeTime=0,
            sessionId=uuid.uuid5(INSTANCE, "session:1").bytes,
            endpointCapabilities={"MaxWebSocketMessagePayloadSize": {"item": (3, 16_777_216)}}))
        return self

    def idle(self):
        self.coming.append(None)

    def ping(self):
        asked = self.say(0, 8, dict(currentDateTime=self.moment + 1))
        self.hear(0, 9, asked, dict(currentDateTime=5))

    def close(self):
        self.say(0, 5, dict(reason=""))

    def put(self, number, data):
        return self.say(4, 2, put_objects({"c": data_object(number, data)}))

    def get(self, number):
        return self.say(4, 1, dict(uris={"c": well(number)}, format=""))

    def open_channel(self, number, kind=7):
        asked = self.say(22, 1, dict(uris={"c": channel(number)}))
        self.hear(22, 2, asked, dict(channels={"c": opened(number, kind=kind)}))

    def load(self, number, *points):
        self.say(22, 4, dict(data=[item(number, [long_index(index)], value) for index, value in points]))

    def meta(self, number, first, last, kind=7):
        asked = self.say(21, 1, dict(uris={"c": channel(number)}))
        self.hear(21, 2, asked, dict(metadata={"c": metadata(number, first, last, kind)}))

    def ask_subscription(self, number, start=LOWEST):
        return self.say(21, 3, dict(channels={"c": dict(
            channelId=number, startIndex=dict(item=long_index(start)), dataChanges=True, requestLatestIndexCount=NONE)}))

    def subscribe(self, number, start=LOWEST):
        self.hear(21, 12, self.ask_subscription(number, start), dict(success={"c": ""}))

    def ask_range(self, number, start, end):
        asked = dict(channelIds=[number], interval=interval(long_index(start), long_index(end)), secondaryIntervals=[])
        return self.say(21, 9, dict(requestUuid=bytes(16), channelRanges=[asked]))

    def range(self, number, start, end, *points):
        self.hear(21, 10, self.ask_range(number, start, end), dict(data=[item(number, [long_index(index)], value) for index, value in points]))

    def spaces(self):
        return self.say(24, 1, dict(storeLastWriteFilter=NONE))

    def delete(self, number):
        return self.say(4, 3, dict(uris={"c": well(number)}, pruneContainedObjects=False))

    def append(self, number, *points):
        self.hear(21, 4, 0, dict(data=[item(number, [long_index(index)], (3, value)) for index, value in points]))

    def replace(self, number, start, end, *points):
        self.hear(21, 6, 0, dict(changeTime=1, channelIds=[number], changedInterval=interval(long_index(start), long_index(end)),
                                 data=[item(number, [long_index(index)], (3, value)) for index, value in points]))

    def truncate(self, *ends):
        self.hear(21, 13, 0, dict(changeTime=1, channels=[dict(channelId=number, newEndIndex=dict(item=long_index(end))) for number, end in ends]))

    def stop(self, number, reason):
        self.hear(21, 8, 0, dict(reason=reason, channelIds={str(number): number}))


class Runs:
    def __init__(self):
        self.lines, self.answers = [], []

    def remark(self, text):
        self.lines.append("# " + text)
        self.answers.append("# " + text)

    def run(self, words, talk=None, written="", status=0, line="", file=None, input=b"", fails=0, sent=None, to="here 80 /", full=0):
        """A run; `sent` is how many of the client's messages are sent whole, where that isn't all, and `full` the number of the write that fails."""
        content = lambda data: "-" if not data else data.hex().upper()
        items = "" if talk is None else " ".join([str(fails)] + ["-" if data is None else data.hex().upper() for data in talk.coming])
        self.lines.append(" | ".join([words, content(file), content(input), items] + [str(full)] * (full > 0)))
        self.answers.append(f"{written}= {status} {line}")
        # whether a call of the link failed, or the dialer had no link
        failed = fails > 0 and sent is not None
        self.answers += ["dialer failed 1"] * (failed or talk is None and status == 10)
        if talk is not None and to is not None:
            self.answers.append(to)
            self.answers += ["link failed 1"] * failed
            self.answers += ["sent " + shown(data) for data in talk.sent[:sent]]

    def fail_each(self, words, talk, calls, written, status=0, line="", **given):
        """Runs in which each call in turn fails, and then one that is never made: first those of the dialer, and then those of the link. `calls` has
        a letter for each call of the link, `s` for a send and `r` for what comes, and a `w` where the output is written."""
        self.run(words, talk, status=10, line="link fault", to=None, **given)
        self.lines[-1] = self.lines[-1].replace("| 0 ", "| 0@1 ", 1)
        self.answers.append("dialer failed 1")
        self.run(words, talk, written, status, line, **given)
        self.lines[-1] = self.lines[-1].replace("| 0 ", "| 0@2 ", 1)
        number = 0
        for place, call in enumerate(calls):
            if call == "w":
                continue
            number += 1
            before = calls[:place]
            # the Close of what was refused anyway changes nothing
            was_refused = status == 9 and place == len(calls) - 1
            self.run(words, talk, written if "w" in before else "", *((status, line) if was_refused else (10, "link fault")), fails=number, sent=before.count("s"), **given)
        self.run(words, talk, written, status, line, fails=number + 1, **given)


def commands(runs):
    runs.remark("each command")
    talk = Talk().begin()
    asked = talk.put(1, b"abc")
    talk.hear(4, 9, asked, dict(success={"c": PUT}))
    talk.close()
    runs.run(f"put ws://here/ {well(1)} file", talk, f"put {well(1)}\n", file=b"abc")
    talk = Talk().begin()
    asked = talk.get(1)
    talk.hear(4, 4, asked, dict(dataObjects={"c": data_object(1, b"abc", written=2, created=2)}))
    talk.close()
    runs.run(f"get ws://here/ {well(1)}", talk, "abc")
    talk = Talk().begin()
    talk.open_channel(0)
    talk.load(0, (10, (3, 1)), (20, (3, 2)))
    talk.ping()
    talk.close()
    runs.run(f"load ws://here/ {channel(0)}", talk, "loaded 2\n", input=b"10 1\n20 2\n")
    talk = Talk().begin()
    talk.meta(0, 10, 20)
    talk.subscribe(0)
    talk.append(0, (10, 1), (20, 2))
    talk.close()
    runs.run(f"watch ws://here/ {channel(0)} 1", talk, "latest 20 2\nwindow 1\n20 2\ncounts 1 2 0 0\n")


def pings(runs):
    runs.remark("a ping: done; the peer goes instead; the session or the ping is refused; a Close or a line that does not get through")
    talk = Talk().begin()
    talk.ping()
    talk.close()
    runs.run("ping ws://here/", talk, "pong 5\n")
    runs.run("ping ws://here/", talk, "pong 5\n", status=10, line="link fault", fails=5, sent=2)
    runs.run("ping ws://here/", talk, status=5, line="write fault", sent=2, full=1)
    talk = Talk().begin()
    talk.say(0, 8, dict(currentDateTime=8))
    runs.run("ping ws://here/", talk, status=11, line="peer fault")
    talk.refuse(0, 4, 8)
    talk.close()
    runs.run("ping ws://here/", talk, status=9, line="refused 8")
    talk = Talk().begin()
    talk.coming.clear()
    talk.server_id = -1
    talk.refuse(0, 2, 4)
    runs.run("ping ws://here/", talk, status=9, line="refused 4")
    runs.run("ping ws://here/", status=10, line="link fault")
    runs.run("ping http://here/", status=1, line="usage")
    runs.run("ping", status=1, line="usage")


def space(uri, written, created):
    return dict(uri=uri, path="", storeLastWrite=written, storeCreated=created, customData={})


def listings(runs):
    runs.remark("dataspaces: two, none, in parts, an answer of another kind, a refusal, a write that fails")
    talk = Talk().begin()
    talk.hear(24, 2, talk.spaces(), dict(dataspaces=[space("eml:///", 3, 0), space("eml:///dataspace('a')", -2, 1)]))
    talk.close()
    runs.run("spaces ws://here/", talk, "eml:/// 3 0\neml:///dataspace('a') -2 1\n")
    runs.run("spaces ws://here/", talk, status=5, line="write fault", sent=2, full=1)
    talk = Talk().begin()
    talk.hear(24, 2, talk.spaces(), dict(dataspaces=[]))
    talk.close()
    runs.run("spaces ws://here/", talk)
    talk = Talk().begin()
    asked = talk.spaces()
    talk.hear(24, 2, asked, dict(dataspaces=[space("eml:///", 3, 0)]), 0)
    talk.hear(24, 2, asked, dict(dataspaces=[space("eml:///dataspace('a')", 4, 1)]))
    talk.close()
    runs.run("spaces ws://here/", talk, "eml:/// 3 0\neml:///dataspace('a') 4 1\n")
    talk = Talk().begin()
    talk.hear(24, 6, talk.spaces(), dict(success={"c": ""}))
    runs.run("spaces ws://here/", talk, status=11, line="peer fault")
    talk = Talk().begin()
    talk.refuse(24, talk.spaces(), 4)
    talk.close()
    runs.run("spaces ws://here/", talk, status=9, line="refused 4")
    runs.run("spaces ws://here/ eml:///", status=1, line="usage")


def deletions(runs):
    runs.remark("an object that is deleted, one that is absent, an answer without its key, a write that fails")
    talk = Talk().begin()
    talk.hear(4, 10, talk.delete(1), dict(deletedUris={"c": dict(values=[well(1)])}))
    talk.close()
    runs.run(f"delete ws://here/ {well(1)}", talk, f"deleted {well(1)}\n")
    runs.run(f"delete ws://here/ {well(1)}", talk, status=5, line="write fault", sent=2, full=1)
    talk = Talk().begin()
    talk.refuse_keys(4, talk.delete(2), {"c": 11})
    talk.close()
    runs.run(f"delete ws://here/ {well(2)}", talk, status=9, line="refused 11")
    talk = Talk().begin()
    talk.hear(4, 10, talk.delete(1), dict(deletedUris={"d": dict(values=[well(1)])}))
    runs.run(f"delete ws://here/ {well(1)}", talk, status=11, line="peer fault")
    talk = Talk().begin()
    talk.delete(1)
    runs.run(f"delete ws://here/ {well(1)}", talk, status=11, line="peer fault")
    runs.run("delete ws://here/ eml:///", status=1, line="usage")


def ranges(runs):
    """The lines of a range are those that `load` reads; see `loads`."""
    runs.remark("the points of an interval, in lines that load reads, for each kind of channel")
    kinds = [
        (5, [(1, (1, True)), (2, (1, False))], "1 true\n2 false\n"), (6, [(-7, (2, -2147483648)), (2, (2, 0))], "-7 -2147483648\n2 0\n"),
        (7, [(10, (3, 1)), (20, (3, -9223372036854775808))], "10 1\n20 -9223372036854775808\n"),
        (8, [(1, bits32(1.5)), (2, bits32(-0.0))], "1 3FC00000\n2 80000000\n"), (9, [(1, bits64(1.5)), (2, bits64(float("inf")))], "1 3FF8000000000000\n2 7FF0000000000000\n"),
        (10, [(1, (6, " a  b")), (2, (6, "\u00e9"))], "1  a  b\n2 \u00e9\n"), (11, [(1, (17, b"\x00\xab\x0f")), (2, (17, b""))], "1 00AB0F\n2 \n"),
    ]
    for kind, points, text in kinds:
        talk = Talk().begin()
        talk.meta(0, 0, 0, kind)
        talk.range(0, 1, 20, *points)
        talk.close()
        runs.run(f"range ws://here/ {channel(0)} 1 20", talk, text)
    runs.remark("all points of a channel, of which there are none; points in parts")
    talk = Talk().begin()
    talk.meta(0, None, None)
    talk.range(0, LOWEST, GREATEST)
    talk.close()
    runs.run(f"range ws://here/ {channel(0)} first last", talk)
    talk = Talk().begin()
    talk.meta(0, 1, 3)
    asked = talk.ask_range(0, 0, 9)
    talk.hear(21, 10, asked, dict(data=[item(0, [long_index(1)], (3, 1)), item(0, [long_index(2)], (3, 2))]), 0)
    talk.hear(21, 10, asked, dict(data=[item(0, [long_index(3)], (3, 3))]))
    talk.close()
    runs.run(f"range ws://here/ {channel(0)} 0 9", talk, "1 1\n2 2\n3 3\n")
    runs.run(f"range ws://here/ {channel(0)} 0 9", talk, status=5, line="write fault", sent=3, full=1)
    runs.remark("a line feed in a text, a line that would be too long, a null, and a value of another kind: no line denotes them")
    for kind, value in ((10, (6, "a\nb")), (11, (17, bytes(32_768))), (7, (0, None)), (7, bits64(1.0))):
        talk = Talk().begin()
        talk.meta(0, 1, 2, kind)
        talk.range(0, 0, 9, (1, (6, "a")) if kind == 10 else (1, value), (2, value))
        runs.run(f"range ws://here/ {channel(0)} 0 9", talk, status=8, line="limit")
    talk = Talk().begin()
    talk.meta(0, 1, 1, 10)
    talk.range(0, 0, 9, (1, (6, "a" * 65_534)))
    talk.close()
    runs.run(f"range ws://here/ {channel(0)} 0 9", talk, "1 " + "a" * 65_534 + "\n")
    runs.remark("no such channel, no such interval, a point of another channel, the peer goes, and words in no form")
    talk = Talk().begin()
    talk.refuse_keys(21, talk.say(21, 1, dict(uris={"c": channel(5)})), {"c": 11})
    talk.close()
    runs.run(f"range ws://here/ {channel(5)} 0 9", talk, status=9, line="refused 11")
    talk = Talk().begin()
    talk.meta(0, 1, 2)
    talk.refuse(21, talk.ask_range(0, 9, 0), 5)
    talk.close()
    runs.run(f"range ws://here/ {channel(0)} 9 0", talk, status=9, line="refused 5")
    talk = Talk().begin()
    talk.meta(0, 1, 2)
    talk.hear(21, 10, talk.ask_range(0, 0, 9), dict(data=[item(1, [long_index(1)], (3, 1))]))
    runs.run(f"range ws://here/ {channel(0)} 0 9", talk, status=11, line="peer fault")
    talk = Talk().begin()
    talk.meta(0, 1, 2)
    talk.ask_range(0, 0, 9)
    runs.run(f"range ws://here/ {channel(0)} 0 9", talk, status=11, line="peer fault")
    for words in ("0", "0 x", "x 9", "01 9", "-1 9", "0 9 9", "0 9223372036854775808"):
        runs.run(f"range ws://here/ {channel(0)} {words}", status=1, line="usage")


def follows(runs):
    runs.remark("changes as they come, until the server stops them")
    talk = Talk().begin()
    talk.meta(0, 10, 20)
    talk.subscribe(0, 10)
    talk.append(0, (10, 1), (20, -2))
    talk.idle()
    talk.replace(0, 15, 30, (16, 3), (30, 4))
    talk.replace(0, 40, 50)
    talk.truncate((0, 16), (0, 5))
    talk.stop(0, "lagged 3")
    talk.close()
    text = "append 10 1\nappend 20 -2\nreplace 15 30\nwith 16 3\nwith 30 4\nreplace 40 50\ntruncate 16\ntruncate 5\n"
    runs.run(f"follow ws://here/ {channel(0)} 10", talk, text, status=16, line="stopped")
    runs.run(f"follow ws://here/ {channel(0)} 10", talk, "append 10 1\nappend 20 -2\n", status=5, line="write fault", sent=3, full=2)
    runs.remark("values are shown as watch shows them")
    talk = Talk().begin()
    talk.meta(0, None, None, 10)
    talk.subscribe(0)
    for value in ((6, "a\n\u00e9"), bits64(1.5), (0, None)):
        talk.hear(21, 4, 0, dict(data=[item(0, [long_index(1)], value)]))
    runs.run(f"follow ws://here/ {channel(0)} first", talk, 'append 1 "a\\x0A\\xC3\\xA9"\nappend 1 d:3FF8000000000000\nappend 1 null\n', status=11, line="peer fault")
    runs.remark("no such channel, no room for its points, a change of another channel, and words in no form")
    talk = Talk().begin()
    talk.refuse_keys(21, talk.say(21, 1, dict(uris={"c": channel(5)})), {"c": 11})
    talk.close()
    runs.run(f"follow ws://here/ {channel(5)} 0", talk, status=9, line="refused 11")
    talk = Talk().begin()
    talk.meta(0, 1, 2)
    talk.refuse_keys(21, talk.ask_subscription(0, 7), {"c": 12})
    talk.close()
    runs.run(f"follow ws://here/ {channel(0)} 7", talk, status=9, line="refused 12")
    talk = Talk().begin()
    talk.meta(0, 1, 2)
    talk.subscribe(0, 7)
    talk.append(1, (10, 1))
    runs.run(f"follow ws://here/ {channel(0)} 7", talk, status=11, line="peer fault")
    for words in ("", "x", "1.5", "-7", "7 8"):
        runs.run(f"follow ws://here/ {channel(0)} {words}".rstrip(), status=1, line="usage")


def refusals(runs):
    runs.remark("an object that is absent, and a line in no form")
    talk = Talk().begin()
    talk.refuse_keys(4, talk.get(2), {"c": 11})
    talk.close()
    runs.run(f"get ws://here/ {well(2)}", talk, status=9, line="refused 11")
    talk = Talk().begin()
    talk.open_channel(0)
    runs.run(f"load ws://here/ {channel(0)}", talk, status=12, line="input line 1", input=b"x")
    runs.remark("a refusal before the session is open, and one whose Close does not get through")
    talk = Talk().begin()
    talk.coming.clear()
    talk.server_id = -1
    talk.refuse(0, 2, 4)
    runs.run(f"get ws://here/ {well(2)}", talk, status=9, line="refused 4")
    talk = Talk().begin()
    talk.refuse_keys(4, talk.get(2), {"c": 11})
    talk.close()
    runs.run(f"get ws://here/ {well(2)}", talk, status=9, line="refused 11", fails=5, sent=2)


def loads(runs):
    runs.remark("an empty input, a line of which the end is that of the input, and an idle turn")
    talk = Talk().begin()
    talk.idle()
    talk.open_channel(0)
    talk.ping()
    talk.close()
    runs.run(f"load ws://here/ {channel(0)}", talk, "loaded 0\n")
    talk = Talk().begin()
    talk.open_channel(0, kind=10)
    talk.load(0, (-5, (6, "a b")), (7, (6, "")))
    talk.ping()
    talk.close()
    runs.run(f"load ws://here/ {channel(0)}", talk, "loaded 2\n", input=b"-5 a b\n7 ")
    runs.remark("a thousand points are a message, and one more begins the next one; a full one is not sent before a line in no form")
    points = [(index, (3, 3)) for index in range(1001)]
    text = "".join(f"{index} 3\n" for index, value in points)
    talk = Talk().begin()
    talk.open_channel(0)
    talk.load(0, *points[:1000])
    talk.load(0, *points[1000:])
    talk.ping()
    talk.close()
    runs.run(f"load ws://here/ {channel(0)}", talk, "loaded 1001\n", input=text.encode())
    talk = Talk().begin()
    talk.open_channel(0)
    runs.run(f"load ws://here/ {channel(0)}", talk, status=12, line="input line 1001", input="".join(f"{index} 3\n" for index in range(1000)).encode() + b"01 3\n")
    runs.remark("a line that is too long")
    talk = Talk().begin()
    talk.open_channel(0, kind=10)
    runs.run(f"load ws://here/ {channel(0)}", talk, status=8, line="limit", input=b"1 " + b"a" * 65_535 + b"\n")


def watches(runs):
    runs.remark("the first of two changes of a message, and a stop")
    talk = Talk().begin()
    talk.meta(0, None, None)
    talk.subscribe(0)
    talk.append(0, (10, 1), (20, 2))
    talk.truncate((0, 15), (0, 5))
    talk.close()
    runs.run(f"watch ws://here/ {channel(0)} 2", talk, "latest none\nwindow 0\ncounts 1 2 0 1\n")
    talk = Talk().begin()
    talk.meta(0, None, None)
    talk.subscribe(0)
    talk.append(0, (10, 1))
    talk.stop(0, "lagged 3")
    talk.close()
    runs.run(f"watch ws://here/ {channel(0)} 2", talk, "latest 10 1\nwindow 1\n10 1\ncounts 1 1 0 0\n", status=16, line="stopped")
    runs.remark("the peer goes while changes are awaited")
    talk = Talk().begin()
    talk.meta(0, None, None)
    talk.subscribe(0)
    runs.run(f"watch ws://here/ {channel(0)} 2", talk, status=11, line="peer fault")


def failing_calls(runs):
    runs.remark("each call of the dialer and of the link fails in turn: a put, a get, a get of what is absent, a load, a load of no point, a watch")
    talk = Talk().begin()
    asked = talk.put(1, b"abc")
    talk.hear(4, 9, asked, dict(success={"c": PUT}))
    talk.close()
    runs.fail_each(f"put ws://here/ {well(1)} file", talk, "srsrws", f"put {well(1)}\n", file=b"abc")
    talk = Talk().begin()
    asked = talk.get(1)
    talk.hear(4, 4, asked, dict(dataObjects={"c": data_object(1, b"abc", written=2, created=2)}))
    talk.close()
    runs.fail_each(f"get ws://here/ {well(1)}", talk, "srsrws", "abc")
    talk = Talk().begin()
    talk.refuse_keys(4, talk.get(2), {"c": 11})
    talk.close()
    runs.fail_each(f"get ws://here/ {well(2)}", talk, "srsrs", "", 9, "refused 11")
    talk = Talk().begin()
    talk.open_channel(0)
    talk.load(0, (10, (3, 1)), (20, (3, 2)))
    talk.ping()
    talk.close()
    runs.fail_each(f"load ws://here/ {channel(0)}", talk, "srsrssrws", "loaded 2\n", input=b"10 1\n20 2\n")
    talk = Talk().begin()
    talk.open_channel(0)
    runs.fail_each(f"load ws://here/ {channel(0)}", talk, "srsr", "", 12, "input line 1", input=b"x")
    talk = Talk().begin()
    talk.meta(0, 10, 20)
    talk.subscribe(0)
    talk.append(0, (10, 1), (20, 2))
    talk.close()
    runs.fail_each(f"watch ws://here/ {channel(0)} 1", talk, "srsrsrrws", "latest 20 2\nwindow 1\n20 2\ncounts 1 2 0 0\n")


def outside(runs):
    failing_calls(runs)
    runs.remark("words in no form, a server that can't be dialed, a port and a path, a file that isn't there")
    runs.run(f"watch ws://here/ {channel(0)}", status=1, line="usage")
    runs.run(f"get ws://here/ {well(1)}", status=10, line="link fault")
    talk = Talk().begin()
    runs.run(f"get ws://[::1]:8080/a/b {well(1)}", talk, status=11, line="peer fault", sent=2, to="[::1] 8080 /a/b")
    talk.get(1)
    runs.answers.append("sent " + shown(talk.sent[1]))
    runs.run(f"put ws://here/ {well(1)} file", status=4, line="read fault")


def main():
    runs = Runs()
    for part in (commands, pings, listings, deletions, ranges, follows, refusals, loads, watches, outside):
        part(runs)
    folder = pathlib.Path(sys.argv[1])
    (folder / "stdin").write_text("\n".join(runs.lines) + "\n")
    (folder / "stdout").write_text("\n".join(runs.answers) + "\n")


if __name__ == "__main__":
    main()
