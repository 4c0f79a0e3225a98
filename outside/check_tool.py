#!/usr/bin/env python3
"""Makes the cases of the program `check_tool`: its captures and configurations, its input, and the output that is expected.

    python3 check_tool.py ../crates/check_tool

Messages are written by the schema of `wire.py` alone, and what answers them was worked out from the rules, case by case. The captures
of `session_cases.py` are answered by the server of `sessions.py`, those of `row_samples.py` by its own, those of
`transaction_samples.py` by that of `transactions.py`, and those of `row_captures.py` and `transaction_captures.py` have their answers
beside them. The captures of `short_sessions.py` are answered by the server of `transactions.py`. The loads are made by `generator.py`, and
answered by the server of `row_samples.py`.
"""
import pathlib
import sys
import uuid

import generator
import row_captures
import row_samples
import session_cases
import short_sessions
import transaction_captures
import transaction_samples
import wire
from sessions import INSTANCE, TEXTS

HEAD = f'instance = "{INSTANCE}"\nname = "wd"\n'
CHANNEL = '[[channel]]\nuri = "eml:///witsml21.Channel({})"\nname = "c"\nkind = "long"\n'
CONFIGS = {
    "server.toml": HEAD + CHANNEL.format(uuid.UUID(int=0)) + CHANNEL.format(uuid.UUID(int=1)),
    "three_entries.toml": "journal = 3\n" + HEAD,
    "types.toml": HEAD + 'types = ["witsml21.Well", "eml23.*"]\n',
    "no_instance.toml": 'name = "wd"\n',
    "one_uri_twice.toml": HEAD + CHANNEL.format(uuid.UUID(int=0)) * 2,
}


# --- messages ----------------------------------------------------------------------------------------------------------


def message(sender, protocol, kind, number, value, correlation=0, flags=2):
    header = dict(protocol=protocol, messageType=kind, correlationId=correlation, messageId=number, messageFlags=flags)
    return wire.write_message(header, wire.BODIES[protocol, kind, sender], value)


def offer(protocol=24, role="store"):
    version = dict(major=1, minor=2, revision=0, patch=0)
    return dict(protocol=protocol, protocolVersion=version, role=role, protocolCapabilities={})


def opening(number=2, role="store", form="xml"):
    return message("C", 0, 1, number, dict(
        applicationName="rig", applicationVersion="1", clientInstanceId=bytes(16), requestedProtocols=[offer(role=role)],
        supportedDataObjects=[], supportedCompression=[], supportedFormats=[form], currentDateTime=0,
        earliestRetainedChangeTime=0, serverAuthorizationRequired=False, endpointCapabilities={}))


def opened(session, moment):
    return message("S", 0, 2, 1, dict(
        applicationName="wd", applicationVersion="1", serverInstanceId=INSTANCE.bytes, supportedProtocols=[offer()],
        supportedDataObjects=[], supportedCompression="", supportedFormats=["xml"], currentDateTime=moment,
        earliestRetainedChangeTime=0, sessionId=uuid.uuid5(INSTANCE, f"session:{session}").bytes,
        endpointCapabilities={"MaxWebSocketMessagePayloadSize": {"item": (3, 16_777_216)}}), 2)


def ping(number=2):
    return message("C", 0, 8, number, dict(currentDateTime=0))


def dataspace(path, moment=0, shown="", custom=None):
    uri = f"eml:///dataspace('{path}')" if path else "eml:///"
    return dict(uri=uri, path=shown, storeLastWrite=moment, storeCreated=moment, customData=custom or {})


def put(number, spaces):
    return message("C", 24, 3, number, dict(dataspaces=spaces))


def listing(number):
    return message("C", 24, 1, number, dict(storeLastWriteFilter=(0, None)))


def put_done(number, correlation, keys=("a",), flags=2):
    return message("S", 24, 6, number, dict(success={key: "" for key in keys}), correlation, flags)


def listed(number, correlation, paths):
    """The default dataspace, and those of these paths by their moments."""
    spaces = [dataspace("")] + [dataspace(path, moment, path) for path, moment in paths]
    return message("S", 24, 2, number, dict(dataspaces=spaces), correlation)


def error(code):
    return dict(message=TEXTS[code], code=code)


def refusal(number, protocol, correlation, code):
    """What answers a message that is refused as a whole."""
    header = dict(protocol=protocol, messageType=1000, correlationId=correlation, messageId=number, messageFlags=2)
    return wire.write_message(header, wire.BODIES[0, 1000, "S"], dict(error=(1, error(code)), errors={}))


def refused_keys(number, correlation, codes):
    """What answers a message of which these keys are refused."""
    return message("S", 24, 1000, number, dict(error=(0, None), errors={key: error(code) for key, code in codes.items()}), correlation)


# --- cases -------------------------------------------------------------------------------------------------------------


def capture(*frames):
    return wire.MAGIC + b"".join(wire.write_frame(*frame) for frame in frames)


class Cases:
    def __init__(self):
        self.files = {name: text.encode() for name, text in CONFIGS.items()}
        self.lines, self.answers = [], []

    def add(self, name, words, bytes_in, outcomes, cut=0, **faults):
        """A case; `outcomes` has what is written and the status line for the capture and then for each of its fronts, and `faults` the
        numbers of the calls that fail."""
        self.add_line(self.file(name, bytes_in), words, outcomes, cut, **faults)

    def file(self, name, content):
        assert self.files.setdefault(name, content) == content
        return name

    def add_line(self, name, words, outcomes, cut=0, opening=0, config=0, read=0, write=0):
        line = " ".join([*map(str, (cut, opening, config, read, write)), name, *words.split()])
        self.lines.append(line)
        failing = dict(host=opening or config, input=read, output=write)
        self.answers.append(f"# {line}\n".encode() + b"".join(shown(*outcome) + counts(outcome[1], **failing) for outcome in outcomes))

    def replay(self, name, bytes_in, bytes_out, status="", config="server.toml"):
        self.add(name, f"replay {config}", bytes_in, [(bytes_out, status)])

    def play(self, script):
        """A capture of `session_cases.py`, whose long runs of zeros are numbers between the names of its files."""
        name, pieces = script.__name__, (script := script()).pieces()
        parts = [f"{name}_{place // 2 + 1}.cap" if place else f"{name}.cap" for place in range(len(pieces))]
        words = [str(piece) if isinstance(piece, int) else self.file(part, piece) for part, piece in zip(parts, pieces)]
        self.add_line("+".join(words), f"replay {script.config}", [script.answer()])

    def replay_made(self, pieces, bytes_out, config):
        """A replay of pieces; those whose name has a colon are made by the program, which tells a digest of the whole."""
        for name, content in pieces:
            if ":" not in name:
                self.file(name, content)
        self.add_line("+".join(name for name, _ in pieces), f"replay {config}", [(bytes_out, "")])
        line, outcome = self.answers[-1].split(b"\n", 1)
        self.answers[-1] = line + b"\n" + digested(b"".join(content for _, content in pieces)) + outcome

    def write(self, folder):
        (folder / "data").mkdir(exist_ok=True)
        for name, content in self.files.items():
            (folder / "data" / name).write_bytes(content)
        (folder / "stdin").write_text("\n".join(self.lines) + "\n")
        (folder / "stdout").write_bytes(b"".join(self.answers))


USAGE = (
    "etptool replay CONFIG < CAPTURE > ANSWERS\netptool show < CAPTURE\netptool check < CAPTURE\n"
    "etptool capture N > CAPTURE\netptool generate N\n"
)
# outputs of at least this many bytes are given by their digest
LONG = 400_000
NUMBERS = {"usage": 1, "config refused": 2, "capture refused": 3, "read fault": 4, "write fault": 5, "refused": 9}


def digested(content):
    """How long it is, and its FNV-1a of 64 bits."""
    digest = 0xCBF29CE484222325
    for byte in content:
        digest = (digest ^ byte) * 0x100000001B3 % 2**64
    return f"{len(content)} bytes of the digest {digest}\n".encode()


def shown(bytes_out, status):
    if len(bytes_out) >= LONG:
        bytes_out = digested(bytes_out)
    number = next((number for start, number in NUMBERS.items() if status.startswith(start)), 0)
    told = (status + "\n" if status else "") + (USAGE if status == "usage" else "")
    return bytes_out + f"\n= {number}\n{told}".encode()


def counts(status, host, input, output):
    """How often each failed of which a call was to fail, where one did."""
    failed = [bool(host and status == "read fault"), bool(input and status == "read fault"), bool(output and status == "write fault")]
    return "failed: host {:d} input {:d} output {:d}\n".format(*failed).encode() if any(failed) else b""


def listed_by_wire(command, content):
    """What `show` or `check` writes of a capture, and how it ends."""
    lines, frames, messages, refused = "", 0, 0, 0
    try:
        for frame in wire.read_frames(content):
            line = wire.show_line(frame) if command == "show" else wire.check_line(frame)
            lines += line or ""
            frames += 1
            messages += frame.kind in wire.SENDERS
            refused += frame.kind in wire.SENDERS and bool(line)
    except wire.Unreadable as fault:
        return lines.encode(), f"capture refused at {fault}"
    if command == "check":
        lines += f"frames {frames} messages {messages} refused {refused}\n"
        return lines.encode(), f"refused {refused}" if refused else ""
    return lines.encode(), ""


def add_beginnings(cases):
    cases.replay("nothing.cap", b"", b"", "capture refused at 0")
    cases.replay("no_frame.cap", wire.MAGIC, wire.MAGIC)
    cases.replay("part_of_a_head.cap", wire.MAGIC + b"\1" + bytes(15), wire.MAGIC, "capture refused at 8")
    cases.replay("part_of_a_length.cap", wire.MAGIC + b"\1" + bytes(11) + b"\1" + bytes(3), wire.MAGIC, "capture refused at 8")
    cases.replay("another_magic.cap", b"ETPCAP02", b"", "capture refused at 0")
    cases.replay("no_frame.cap", wire.MAGIC, b"", "config refused: key 1 of channel 0", "no_instance.toml")
    cases.replay("no_frame.cap", wire.MAGIC, b"", "config refused: double uri of channel 2", "one_uri_twice.toml")
    cases.replay("no_frame.cap", wire.MAGIC, b"", "read fault", "absent.toml")
    for words in ("", "replay", "replay -c", "replay server.toml server.toml", "show -x", "show x", "check x", "Show", "-"):
        cases.add("no_frame.cap", words, wire.MAGIC, [(b"", "usage")])


def add_configs(cases):
    """Configurations that are taken, and one for each cause that refuses one."""
    channel = CHANNEL.format(uuid.UUID(int=1))
    uri = 'uri = "eml:///a10.B(00000000-0000-0000-0000-000000000002)"\n'
    second = lambda keys: HEAD + channel + "[[channel]]\n" + keys
    key = lambda number, channel=0: f"key {number} of channel {channel}"
    rows = [
        ("unknown_key", HEAD + "other = 3\n", None),
        ("least", HEAD + "lag = 1\njournal = 2\n", None),
        ("greatest", HEAD + "lag = 65536\njournal = 4194304\n" + CHANNEL.format(uuid.UUID(int=1)) + 'uom = "m"\n', None),
        ("no_instance_first", "name = 1", key(1)),
        ("no_toml", "name =", "toml"),
        ("empty_name", f'instance = "{{{INSTANCE}}}"\nname = ""\n', key(2)),
        ("no_lag", HEAD + "lag = 0\n", key(3)),
        ("great_lag", HEAD + "lag = 65537\n", key(3)),
        ("negative_lag", HEAD + "lag = -1\n", key(3)),
        ("text_lag", HEAD + 'lag = "1"\n', key(3)),
        ("short_journal", HEAD + "journal = 1\n", key(4)),
        ("great_journal", HEAD + "journal = 4194305\n", key(4)),
        ("text_types", HEAD + 'types = "witsml21.*"\n', key(5)),
        ("wrong_type", HEAD + 'types = ["witsml21"]\n', key(5)),
        ("number_type", HEAD + 'types = ["witsml21.*", 3]\n', key(5)),
        ("number_channel", HEAD + "channel = 3\n", key(6)),
        ("number_channels", HEAD + "channel = [3]\n", key(6)),
        ("no_uri", second(""), key(7, 2)),
        ("space_uri", second('uri = "eml:///"\n'), "uri of channel 2"),
        ("wrong_uri", second('uri = "eml:/x"\n'), "uri of channel 2"),
        ("no_name", second(uri), key(8, 2)),
        ("no_kind", second(uri + 'name = "n"\n'), key(9, 2)),
        ("wrong_kind", second(uri + 'name = "n"\nkind = "Long"\n'), "kind of channel 2"),
        ("number_uom", second(uri + 'name = "n"\nkind = "bytes"\nuom = 1\n'), key(10, 2)),
        ("many_channels", HEAD + "[[channel]]\n" * 4_097, "too many"),
    ]
    for name, text, cause in rows:
        config = cases.file(f"{name}.toml", text.encode())
        told = "" if cause is None else f"config refused: {cause}"
        cases.replay("no_frame.cap", wire.MAGIC, wire.MAGIC if cause is None else b"", told, config)


def add_bad_frames(cases):
    """Captures with a malformed frame: the first one, or the one after it."""
    head = lambda kind, length: wire.FRAME_HEAD.pack(kind, 0, 0, length)
    rows = [
        ("kind_4", b"\4"), ("cut_head", b"\1\0"), ("cut_payload", head(1, 2) + b"a"), ("long_message", head(1, 33_554_433)),
        ("long_reply", head(17, 33_554_433)), ("filled_poll", head(2, 1) + b"a"), ("filled_end", head(3, 1) + b"a"),
        ("empty_ended", head(19, 0)), ("two_bytes_ended", head(19, 2) + b"ab"),
    ]
    for name, content in rows:
        for file, front in (f"{name}.cap", b""), (f"{name}_later.cap", wire.write_frame(3, 1, 0)):
            capture_in = wire.MAGIC + front + content
            cases.add(file, "show", capture_in, [listed_by_wire("show", capture_in)])
    cases.add("part_of_magic.cap", "check", wire.MAGIC[:7], [(b"", "capture refused at 0")])


def add_long_array(cases):
    """A message with more values than a message may have: an array of as many false ones as there may be values in all."""
    limit = wire.NODE_LIMIT
    header = dict(protocol=9, messageType=4, correlationId=0, messageId=2, messageFlags=2)
    front = wire.Writer().value(wire.HEADER, header)
    # one array `a` under an empty identifier, without dimensions, of the first kind of items
    front += b"\2\2a" + b"\0\0" + b"\0" + b"\0" + wire.Writer().number(limit)
    file = cases.file("long_array.cap", wire.MAGIC + wire.FRAME_HEAD.pack(1, 0, 1, len(front) + limit) + front)
    # before its items come the body, its map, the record of `a`, its identifier with two texts, its array with the dimensions, and
    # the items' record, union, record and list
    line = f"8 body limit {len(front) + limit - 12}\n"
    cases.add_line(f"{file}+{limit}", "check", [((line + "frames 1 messages 1 refused 1\n").encode(), "refused 1")])


def shipped():
    """The frames of the shipped session, and those that answer them, one each."""
    close = message("C", 0, 5, 8, dict(reason=""))
    return (
        [(1, 0, 1, opening()), (1, 0, 2, put(4, {"a": dataspace("w", shown="w")})), (1, 0, 3, listing(6)), (1, 0, 4, close)],
        [(17, 0, 1, opened(1, 1)), (17, 0, 2, put_done(3, 4)), (17, 0, 3, listed(5, 6, [("w", 2)])), (19, 0, 4, b"\1")])


def add_failing_calls(cases):
    """Opening the configuration, each read of it and of the shipped session, and each write of its answers fails in turn, and then one that
    is never made.

    The configuration's bytes come with one read, and its end is a second.

    The input gives a byte a read, so a read fails after as many bytes as there were reads before it; what answers the frames
    that are whole by then is written. The magic of the answers is a write of its own, made when that of the capture was read."""
    frames, answers = shipped()
    given = capture(*frames)
    ends = [len(capture(*frames[:count + 1])) for count in range(len(frames))]
    for number in range(1, len(given) + 3):
        done = [answer for answer, end in zip(answers, ends) if end < number]
        written = capture(*done) if number > len(wire.MAGIC) else b""
        cases.add("session.cap", "replay server.toml", given, [(written, "read fault" if number <= len(given) + 1 else "")], read=number)
    for number, written in (1, b""), (2, wire.MAGIC), (3, capture(*answers)):
        cases.add("session.cap", "replay server.toml", given, [(written, "write fault" if number < 3 else "")], write=number)
    for fault, numbers in ("opening", 1), ("config", 2):
        for number in range(1, numbers + 2):
            outcome = (b"", "read fault") if number <= numbers else (capture(*answers), "")
            cases.add("session.cap", "replay server.toml", given, [outcome], **{fault: number})


def add_sessions(cases):
    """Whole sessions: one with its end, one that begins with another message, and several by turns."""
    cases.replay("session.cap", *map(lambda frames: capture(*frames), shipped()))
    cases.replay("ping_first.cap", capture((1, 0, 1, ping())), capture((17, 0, 1, refusal(1, 0, 2, 8))))
    frames = capture((2, 7, 1), (1, 4, 2, ping()), (3, 7, 3), (1, 4, -4, ping()))
    cases.replay(
        "after_the_end.cap", frames + wire.write_frame(2, 7, 5),
        capture((17, 4, 2, refusal(1, 0, 2, 8)), (19, 7, 3, b"\4"), (17, 4, -4, refusal(3, 0, 2, 19))),
        f"capture refused at {len(frames)}")
    cases.replay("servers_frame.cap", capture((17, 0, 1, ping())), wire.MAGIC, "capture refused at 8")
    tags = range(8)
    turns = [(1, tag, 1, opening()) for tag in tags]
    turns += [(1, tag, 10 + tag, put(4, {"a": dataspace(f"t{tag}")})) for tag in tags]
    turns += [(1, tag, 30, listing(6)) for tag in tags]
    paths = [(f"t{tag}", 10 + tag) for tag in tags]
    answers = [(17, tag, 1, opened(1 + tag, 1)) for tag in tags]
    answers += [(17, tag, 10 + tag, put_done(3, 4)) for tag in tags]
    answers += [(17, tag, 30, listed(5, 6, paths)) for tag in tags]
    cases.replay("eight_sessions.cap", capture(*turns), capture(*answers))
    requests, replies = [(1, 0, 1, opening())], [(17, 0, 1, opened(1, 1))]
    for count in range(80):
        paths = [(f"s{each:02}", 2 + each) for each in range(count + 1)]
        requests += [(1, 0, 2 + count, put(4 + 4 * count, {"a": dataspace(f"s{count:02}")})), (1, 0, 99, listing(6 + 4 * count))]
        replies += [(17, 0, 2 + count, put_done(3 + 4 * count, 4 + 4 * count)), (17, 0, 99, listed(5 + 4 * count, 6 + 4 * count, paths))]
    cases.replay("many_puts.cap", capture(*requests), capture(*replies))


def add_refusals(cases):
    """Each code that a message can be refused by."""
    spaces = lambda number, path, uri=None: put(number, {"a": dict(dataspace(path), **({"uri": uri} if uri else {}))})
    drop = message("C", 24, 4, 16, dict(uris={"a": "eml:///dataspace('v')"}))
    whole = lambda protocol, code: lambda number, correlation: refusal(number, protocol, correlation, code)
    keys = lambda code: lambda number, correlation: refused_keys(number, correlation, {"a": code})
    rows = [
        (message("S", 24, 2, 4, dict(dataspaces=[])), 4, whole(24, 3)),
        (b"\x0e\x02\0\x0c\4", 6, whole(0, 4)),
        (b"$\6\0\x10\4" + bytes(16), 8, whole(18, 4)),
        (spaces(10, ""), 10, keys(6)),
        (opening(12), 12, whole(0, 8)),
        (spaces(14, "", "eml:/x"), 14, keys(9)),
        (drop, 16, keys(11)),
        (b"0\6\0$\x14\xff", 18, whole(24, 13)),
        (b"\0\x10\0$\4\0", 18, whole(0, 19)),
        (b"\0\x10\0(D\0", 20, whole(0, 19)),
        (b"\0\x10\0,\4", 22, whole(0, 19)),
        (b"\0\x10\0" + b"0\4\0\0", 24, whole(0, 19)),
        (b"\x80", 0, whole(0, 19)),
    ]
    requests = [(1, 0, 1, opening())] + [(1, 0, 2, bytes_in) for bytes_in, _, _ in rows]
    replies = [(17, 0, 1, opened(1, 1))] + [(17, 0, 2, answer(3 + 2 * row, number)) for row, (_, number, answer) in enumerate(rows)]
    cases.replay("refusals.cap", capture(*requests), capture(*replies))
    cases.replay(
        "refused_openings.cap", capture((1, 0, 1, opening(role="rig")), (1, 1, 2, opening(form="csv"))),
        capture((17, 0, 1, refusal(1, 0, 2, 2)), (19, 0, 1, b"\2\0\0\0\2"), (17, 1, 2, refusal(1, 0, 2, 21)), (19, 1, 2, b"\2\0\0\0\x15")))
    compressed = b"0\6\0\x08\x14\xff\xff"
    cases.replay(
        "compressed.cap", capture((1, 0, 1, opening()), (1, 0, 2, compressed), (1, 0, 3, compressed)),
        capture((17, 0, 1, opened(1, 1)), (17, 0, 2, refusal(3, 24, 4, 13)), (17, 0, 3, refusal(5, 24, 4, 19))))
    some = {"a": dataspace("w"), "b": dict(dataspace(""), uri="eml:/x"), "c": dataspace("v")}
    cases.replay(
        "some_keys.cap", capture((1, 0, 1, opening()), (1, 0, 2, put(4, some))),
        capture((17, 0, 1, opened(1, 1)), (17, 0, 2, put_done(3, 4, ("a", "c"), 0)), (17, 0, 2, refused_keys(5, 4, {"b": 9}))))


def add_limits(cases):
    """A full journal, and what is too large."""
    cases.replay(
        "full_journal.cap",
        capture((1, 0, 1, opening()), (1, 0, 2, put(4, {"a": dataspace("w")})), (1, 0, 3, put(6, {"a": dataspace("v")})), (1, 1, 5, opening())),
        capture((17, 0, 1, opened(1, 1)), (17, 0, 2, put_done(3, 4)), (17, 0, 3, refusal(5, 24, 6, 12)), (19, 1, 5, b"\5")),
        config="three_entries.toml")
    long_key = message("C", 24, 4, 4, dict(uris={"k" * 1_025: "eml:///"}))
    many_keys = message("C", 24, 4, 6, dict(uris={str(key): "eml:///" for key in range(1_000, 2_025)}))
    custom = put(8, {"a": dataspace("w", custom={"c": {"item": (17, bytes(16_384))}})})
    cases.replay(
        "too_large.cap", capture((1, 0, 1, opening()), (1, 0, 2, long_key), (1, 0, 3, many_keys), (1, 0, 4, custom)),
        capture((17, 0, 1, opened(1, 1)), (17, 0, 2, refusal(3, 24, 4, 5)), (17, 0, 3, refusal(5, 24, 6, 12)), (17, 0, 4, refused_keys(7, 8, {"a": 17}))))


def add_listings(cases):
    """Captures that are shown and checked: each kind of frame, refused messages, and every end of a short one."""
    kinds = capture((1, 0, 7, ping()), (2, 4_294_967_295, -1), (17, 1, 0, ping()), (3, 1, -1 << 63), (19, 1, (1 << 63) - 1, b"\2\0\0\0\xab"))
    refused = capture((1, 0, 7, ping() + b"\0"), (1, 0, 7, b""), (17, 0, 7, ping()))
    for name, content in ("kinds.cap", kinds), ("refused.cap", refused), ("no_frame.cap", wire.MAGIC), ("nothing.cap", b""):
        for command in "show", "check":
            cases.add(name, command, content, [listed_by_wire(command, content)])
    pings = capture((1, 0, 7, ping()), (1, 0, 7, ping()))
    for command in "show", "check":
        cases.add("pings.cap", command, pings, [listed_by_wire(command, pings[:len(pings) - less]) for less in range(41)], cut=40)
    for command in "show", "check":
        cases.add("pings.cap", command, pings, [(wire.show_line(next(wire.read_frames(pings))).encode() if command == "show" else b"", "read fault")], read=35)
    cases.add("pings.cap", "show", pings, [(b"", "read fault")], read=4)
    cases.add("pings.cap", "show", pings, [(b"", "write fault")], write=1)
    cases.add("pings.cap", "replay server.toml", pings, [(capture((17, 0, 7, refusal(1, 0, 2, 8))), "read fault")], read=35)
    cases.add("pings.cap", "replay server.toml", pings, [(b"", "write fault")], write=1)


def add_rows(cases):
    """Requests on dataspaces, objects, arrays and channels, and transactions."""
    for name, config, bytes_in, bytes_out in [
        *row_captures.cases(), *row_samples.cases(), *transaction_captures.cases(), *transaction_samples.cases(), *short_sessions.cases()
    ]:
        cases.replay(f"{name}.cap", bytes_in, bytes_out, config=cases.file(f"{config[0]}.toml", config[1].encode()))


def add_far_behind(cases):
    """A subscriber that is as far behind as it may be, and one that is further."""
    for name, count in row_captures.FAR_BEHIND.items():
        pieces, bytes_out = row_captures.pieces_far_behind(name, count)
        cases.replay_made(pieces, bytes_out, "two_channels.toml")


def add_loads(cases):
    """Loads that are captured, played, checked and replayed, and numbers that no load has."""
    config = cases.file("load.toml", generator.config().encode())
    for count in 24, 25, 200:
        capture_in = generator.capture(count)
        cases.add("no_frame.cap", f"capture {count}", wire.MAGIC, [(capture_in, "")])
        cases.add("no_frame.cap", f"generate {count}", wire.MAGIC, [(generator.summary(count).encode(), "")])
        cases.add(f"load_{count}.cap", "check", capture_in, [listed_by_wire("check", capture_in)])
    cases.replay("load_200.cap", capture_in, wire.MAGIC + b"".join(generator.answers(200)), config=config)
    for count in 1_000, 10_000, 10_000:
        cases.add("no_frame.cap", f"generate {count}", wire.MAGIC, [(generator.summary(count).encode(), "")])
    capture_in = generator.capture(10_000)
    cases.add("no_frame.cap", "capture 10000", wire.MAGIC, [(capture_in, "")])
    cases.replay_made([("load:10000", capture_in)], wire.MAGIC + b"".join(generator.answers(10_000)), config)
    for command in "capture", "generate":
        for number in "", "0", "23", "024", "+24", "24x", "1000001", "4294967320", "24 24":
            cases.add("no_frame.cap", f"{command} {number}".strip(), wire.MAGIC, [(b"", "usage")])
        cases.add("no_frame.cap", f"{command} 24", wire.MAGIC, [(b"", "write fault")], write=1)


def add_faulty_system(cases):
    """What is reported when, after the cases, the tool runs over a system that fails: its output, and memory."""
    cases.answers.append(b"write fault\nno memory\n")


def main():
    cases = Cases()
    add_beginnings(cases)
    add_configs(cases)
    add_sessions(cases)
    add_failing_calls(cases)
    add_refusals(cases)
    add_limits(cases)
    add_listings(cases)
    add_bad_frames(cases)
    add_long_array(cases)
    for script in session_cases.SCRIPTS:
        cases.play(script)
    add_rows(cases)
    add_far_behind(cases)
    add_loads(cases)
    add_faulty_system(cases)
    cases.write(pathlib.Path(sys.argv[1]))


if __name__ == "__main__":
    main()
