#!/usr/bin/env python3
"""Transactions of four sessions over few keys, drawn at random and interleaved, and what the server of `transactions.py` answers.

    transaction_samples.py laws             tests that server by laws of transactions, and by the captures that are written out
    transaction_samples.py count            how the transactions end
    transaction_samples.py journal FOLDER   config.toml, capture and answers of a journal that is full to the byte, which takes 600 MB

`check_tool.py` takes the captures as cases.
"""
import copy
import pathlib
import random
import sys
import tomllib
import uuid

import row_samples
import transaction_captures
import transactions
import wire
from row_samples import like, product, space_uri

NONE = (0, None)
TAGS = range(4)
CASES = {
    "tx_default": dict(seed=1, count=130, journal=4_194_304, paths=("",), objects=1),
    "tx_two_spaces": dict(seed=2, count=130, journal=4_194_304, paths=("", "w", "w", "w", "w"), objects=1),
    "tx_one_object": dict(seed=3, count=120, journal=4_194_304, paths=("w",), objects=1),
    "tx_full": dict(seed=4, count=120, journal=215, paths=("it's", "", "it's", "it's", "it's"), objects=1),
}


# --- drawing -----------------------------------------------------------------------------------------------------------


class Client:
    """Draws the messages of a session."""

    def __init__(self, draw, session, paths):
        self.draw, self.session, self.paths, self.id = draw, session, paths, 0

    def rare(self, times):
        return self.draw.randrange(times) == 0

    def message(self, protocol, kind, value, correlation=0):
        self.id += 2
        flags = 0x12 if self.rare(25) else 2
        header = dict(protocol=protocol, messageType=kind, correlationId=correlation, messageId=self.id, messageFlags=flags)
        return wire.write_message(header, wire.BODIES[protocol, kind, "C"], value)

    def open(self):
        version = dict(major=1, minor=2, revision=0, patch=0)
        asked = [dict(protocol=number, protocolVersion=version, role="store", protocolCapabilities={}) for number in (4, 9, 18, 24)]
        return self.message(0, 1, dict(
            applicationName="", applicationVersion="", clientInstanceId=bytes(16), requestedProtocols=asked, supportedDataObjects=[],
            supportedCompression=[], supportedFormats=["xml", "json"], currentDateTime=0, earliestRetainedChangeTime=0,
            serverAuthorizationRequired=False, endpointCapabilities={}))

    # -- names

    def keys(self):
        return self.draw.sample("abcd", self.draw.choice([1] * 12 + [2, 2, 2, 3]))

    def path(self):
        return self.draw.choice(["", "w", "x"]) if self.rare(20) else self.draw.choice(self.paths)

    def object(self):
        if self.rare(60):
            return "eml:///a00.A"
        path = self.path()
        return space_uri(path) + ("/" if path else "") + f"a00.A({uuid.UUID(int=self.draw.choice(self.numbers))})"

    def uid(self):
        return dict(uri=self.object(), pathInResource="" if self.rare(60) else self.draw.choice("aaab"))

    def contents(self):
        contents = self.session().contents
        return contents.view() if isinstance(contents, transactions.Transaction) else contents

    def array(self, uid):
        name = row_samples.object_name(uid["uri"])
        return None if isinstance(name, int) else self.contents().arrays.get((name[2], uid["pathInResource"]))

    # -- requests

    def get(self):
        yield self.message(4, 1, dict(uris={key: self.object() for key in self.keys()}, format="json" if self.rare(12) else ""))

    def data(self):
        return self.draw.randbytes(self.draw.randrange(4))

    def given(self, blob=None):
        resource = dict(
            uri=self.object(), alternateUris=[], name="", sourceCount=NONE, targetCount=NONE, lastChanged=0, storeLastWrite=0, storeCreated=0,
            activeStatus=0, customData={})
        form = self.draw.choice(["json", "json", "text"]) if self.rare(12) else ""
        return dict(resource=resource, format=form, blobId=NONE if blob is None else (1, blob), data=b"" if blob else self.data())

    def put(self):
        yield self.message(4, 2, dict(dataObjects={key: self.given() for key in self.keys()}, pruneContainedObjects=self.rare(60)))

    def put_in_chunks(self):
        keys = self.keys()
        yield self.message(4, 2, dict(dataObjects={key: self.given(key.encode() * 16) for key in keys}, pruneContainedObjects=False))
        put = self.id
        for key in keys:
            yield self.message(4, 8, dict(blobId=key.encode() * 16, data=self.data(), final=True), put)

    def remove(self):
        yield self.message(4, 3, dict(uris={key: self.object() for key in self.keys()}, pruneContainedObjects=False))

    def values(self, branch, count):
        make = {0: lambda: self.rare(2), 5: lambda: "t" * self.draw.randrange(3)}.get(branch, lambda: self.draw.randrange(60))
        return dict(item=like(branch, [make() for _ in range(count)]))

    def put_arrays(self):
        def one():
            dims = self.draw.choice([[2], [2], [3], [2, 2], [0], [1, 3]])
            count = product(dims) + self.rare(20)
            return dict(uid=self.uid(), array=dict(dimensions=dims, data=self.values(self.draw.choice([0, 1, 2, 5, 6]), count)), customData={})

        yield self.message(9, 4, dict(dataArrays={key: one() for key in self.keys()}))

    def make_arrays(self):
        def one():
            metadata = dict(
                dimensions=[self.draw.randrange(4)], preferredSubarrayDimensions=[], transportArrayType=self.draw.choice([0, 1, 2, 5, 6]),
                logicalArrayType=self.draw.randrange(21), storeLastWrite=0, storeCreated=0, customData={})
            return dict(uid=self.uid(), metadata=metadata)

        yield self.message(9, 9, dict(dataArrays={key: one() for key in self.keys()}))

    def region(self, array):
        starts, counts = [], []
        for dim in array["dims"] if array else [2]:
            starts.append(self.draw.randrange(dim + 1))
            counts.append(self.draw.randrange(dim - starts[-1] + 1) + self.rare(25))
        return dict(starts=starts, counts=counts)

    def patch(self):
        def one():
            uid = self.uid()
            array = self.array(uid)
            region = self.region(array)
            branch = array["values"][0] if array and not self.rare(25) else 1
            return dict(uid=uid, data=self.values(branch, product(region["counts"])), **region)

        yield self.message(9, 5, dict(dataSubarrays={key: one() for key in self.keys()}))

    def slice(self):
        def one():
            uid = self.uid()
            return dict(uid=uid, **self.region(self.array(uid)))

        yield self.message(9, 3, dict(dataSubarrays={key: one() for key in self.keys()}))

    def get_arrays(self):
        yield self.message(9, 2, dict(dataArrays={key: self.uid() for key in self.keys()}))

    def describe(self):
        yield self.message(9, 6, dict(dataArrays={key: self.uid() for key in self.keys()}))

    def put_space(self, path):
        item = dict(uri=space_uri(path), path="", storeLastWrite=0, storeCreated=0, customData={})
        return self.message(24, 3, dict(dataspaces={"k": item}))

    def put_spaces(self):
        yield self.put_space(self.path())

    def drop_spaces(self):
        yield self.message(24, 4, dict(uris={"k": space_uri(self.path())}))

    def list_spaces(self):
        yield self.message(24, 1, dict(storeLastWriteFilter=NONE))

    def request(self):
        """Draws a request, and its messages one by one."""
        many = (
            [self.get] * 6 + [self.put] * 13 + [self.remove] * 3 + [self.put_arrays] * 5 + [self.make_arrays] + [self.patch] * 6 + [self.slice] * 3
            + [self.get_arrays] * 2 + [self.describe] * 2)
        few = [self.put_in_chunks, self.put_spaces, self.put_spaces, self.drop_spaces, self.list_spaces]
        return self.draw.choice(few if self.rare(25) else many)()

    # -- transactions

    def start(self):
        paths = [self.draw.choice(self.paths)] if self.rare(8) else self.paths
        if self.rare(30):
            paths = [*paths, "none"]
        uris = [] if set(paths) == {""} and self.rare(2) else [space_uri(path) for path in dict.fromkeys(paths)]
        if self.rare(60):
            uris.append("eml:///no")
        return self.message(18, 1, dict(readOnly=self.rare(12), message="", dataspaceUris=uris))

    def end(self, kind):
        """A commit or a rollback of the open transaction, by its kind; rarely of another one."""
        transaction = self.session().transaction
        id = bytes(16) if transaction is None or self.rare(60) else transaction.id
        return self.message(18, kind, dict(transactionUuid=id))

    def turn(self, numbers):
        """The messages of one transaction, or of a few requests outside, one by one."""
        self.numbers = numbers
        if self.rare(8):
            for _ in range(self.draw.choice([1, 1, 2])):
                yield from self.drop_spaces() if self.rare(4) else self.request()
            return
        yield self.start()
        for _ in range(self.draw.choice([2, 2, 3, 3, 4])):
            if self.rare(80):
                yield self.start()
            yield from self.request()
        while self.session().transaction is not None:
            yield self.end(4 if self.rare(10) else 3)


def config_of(journal):
    return f'instance = "{row_samples.INSTANCE}"\nname = "wd"\njournal = {journal}\n'


def played(seed, count, journal, paths, objects):
    """The frames of a capture, and those that answer it."""
    draw = random.Random(seed)
    server = transactions.Server([], 65_536, journal, None)
    clients = [Client(draw, lambda tag=tag: server.tags[tag], paths) for tag in TAGS]
    frames, answers, moment = [], [], 0

    def frame(kind, tag, data=b""):
        nonlocal moment
        moment += draw.randrange(3)
        frames.append((kind, tag, moment, data))
        answers.extend(server.play(*frames[-1]))

    for tag in TAGS:
        frame(1, tag, clients[tag].open())
    for place in range(count):
        for path in paths:
            if path not in server.store.spaces and (place == 0 or draw.randrange(3) > 0):
                tag = draw.choice(TAGS)
                frame(1, tag, clients[tag].put_space(path))
        numbers = draw.sample(range(1, 6), objects)
        turns = {tag: clients[tag].turn(numbers) for tag in TAGS}
        while turns:
            tag = draw.choice(list(turns))
            message = next(turns[tag], None)
            if message is None:
                del turns[tag]
            else:
                frame(1, tag, message)
    # three sessions end within a transaction, and the other one looks at everything
    for tag in TAGS:
        if tag:
            frame(1, tag, clients[tag].start())
            for _ in range(3):
                for message in clients[tag].put():
                    frame(1, tag, message)
            frame(1 if tag == 1 else 3, tag, clients[tag].message(0, 5, dict(reason="")) if tag == 1 else b"")
    uris = [space_uri(path) + ("/" if path else "") + f"a00.A({uuid.UUID(int=number)})" for path in dict.fromkeys(paths) for number in range(1, 6)]
    last = clients[0]
    frame(1, 0, last.message(4, 1, dict(uris={f"{place:02}": uri for place, uri in enumerate(uris)}, format="")))
    ids = [dict(uri=uri, pathInResource=path) for uri in uris for path in "ab"]
    frame(1, 0, last.message(9, 2, dict(dataArrays={f"{place:02}": id for place, id in enumerate(ids)})))
    frame(1, 0, last.message(24, 1, dict(storeLastWriteFilter=NONE)))
    return frames, answers


def written(frames):
    return wire.MAGIC + b"".join(wire.write_frame(*frame) for frame in frames)


def cases():
    """The name of each capture, its configuration with its name, the capture, and what is written."""
    for name, how in CASES.items():
        frames, answers = played(**how)
        yield name, (name, config_of(how["journal"])), written(frames), wire.MAGIC + b"".join(answers)


# --- laws --------------------------------------------------------------------------------------------------------------


class PlainSession(row_samples.Session):
    """A session without transactions; `within` has the dataspaces that it is held to, and whether it may only read."""

    within = None

    def object_name(self, uri):
        name = row_samples.object_name(uri)
        return name if isinstance(name, int) or self.within is None or name[0] in self.within[0] else 6

    def ask_to_write(self):
        if self.within is not None and self.within[1]:
            raise row_samples.Refused(6)


class PlainServer(row_samples.Server):
    make_session = PlainSession


def header_of(data):
    return wire.Reader(data).value(wire.HEADER)


def bodies(messages):
    """The protocols, numbers and bodies of messages that were sent, but for Acknowledge."""
    read = [wire.read_message(message, "S") for message in messages]
    return [(header["protocol"], header["messageType"], value) for header, _, value in read if header["messageType"] != 1001]


class Run:
    """A transaction, with its session as it was when that began, and what was asked and answered in it."""

    def __init__(self, session, mark):
        self.session, self.transaction, self.began = copy.copy(session), session.transaction, mark
        self.session.sender, self.session.awaited = copy.deepcopy((session.sender, session.awaited))
        self.asked, self.answered = [], []

    def alone(self, tables):
        """What its requests are answered by a store that has these tables and does nothing else."""
        store = transactions.Store([], 4_194_304)
        store.spaces, store.objects, store.arrays = map(dict, tables)
        server = transactions.Server([], 65_536, 4_194_304, None)
        server.store = store
        session = copy.copy(self.session)
        session.server, session.store, session.sender, session.awaited = server, store, *copy.deepcopy((session.sender, session.awaited))
        session.transaction = transactions.Transaction(store, self.transaction.id, self.transaction.read_only, self.transaction.paths)
        for moment, data in self.asked:
            session.take(moment, data)
        return bodies(server.sent)


def value_at(tables, key):
    kind, name = key
    return tables[("space", "object", "array").index(kind)].get(name)


class Laws:
    """Plays a capture, and tests that each transaction is as it has to be."""

    def __init__(self, journal):
        self.server, self.plain = transactions.Server([], 65_536, journal, None), PlainServer([], 65_536, 4_194_304, None)
        # what stood after each number of entries
        self.tables, self.runs, self.count = [None, self.server.store.tables()], {}, 0

    def play(self, kind, tag, moment, data):
        session, entries = self.server.tags.get(tag), self.server.store.entries
        before = (None, 0) if session is None else (session.transaction, session.last_id)
        mark = len(entries)
        self.server.play(kind, tag, moment, data)
        sent, session = self.server.sent, self.server.tags[tag]
        self.tables += [self.server.store.tables() for _ in entries[mark:]]
        if session.end is not None:
            self.runs.pop(tag, None)
            return
        taken = session.last_id != before[1]
        asked = header_of(data)["protocol"] if taken else None
        if before[0] is None and session.transaction is None:
            self.same_outside(tag, moment, data, sent)
        elif before[0] is None:
            self.runs[tag] = Run(session, mark)
        elif session.transaction is None:
            self.test_end(tag, self.runs.pop(tag), mark, bodies(sent)[-1])
        elif asked in (4, 9):
            self.runs[tag].asked.append((moment, data))
            self.runs[tag].answered += bodies(sent)

    def ask_plain(self, tag, moment, data):
        session = self.plain.tags[tag]
        session.last_id = 0
        self.plain.play(1, tag, moment, data)
        return bodies(self.plain.sent)

    def same_outside(self, tag, moment, data, sent):
        """What is asked outside transactions is answered as by a server that hears of a transaction at its commit."""
        if header_of(data)["protocol"] == 18:
            return
        full = [value for _, kind, value in bodies(sent) if kind == 1000 and value["error"][0] and value["error"][1]["code"] == 12]
        if full:
            assert len(self.server.store.entries) == self.server.store.limit
            return
        if tag not in self.plain.tags:
            self.plain.play(1, tag, moment, data)
            assert self.plain.sent == sent
        else:
            assert self.ask_plain(tag, moment, data) == bodies(sent)

    def test_end(self, tag, run, mark, answer):
        _, kind, told = answer
        entries, reason = self.server.store.entries, told["failureReason"]
        added = len(entries) - mark
        if kind == 6 or reason:
            assert added == 0 and (kind == 5 or told["successful"])
        if kind == 6:
            return
        self.count += 1
        self.test_clash(run.transaction, mark, reason)
        if reason == "journal full":
            assert mark == self.server.store.limit and run.transaction.operations
        if reason:
            return
        # one entry has all its operations, and what was answered is what it would be answered alone at this place
        assert added == bool(run.transaction.operations)
        assert not added or self.server.store.operations[-1] == run.transaction.operations
        assert run.alone(self.tables[mark]) == run.answered
        # and what is answered where all of it is asked at once, outside any transaction
        plain = self.plain.tags[tag]
        plain.within = run.transaction.paths, run.transaction.read_only
        answered = [body for moment, data in run.asked for body in self.ask_plain(tag, moment, data)]
        plain.within = None
        assert answered == run.answered
        assert self.plain.store.tables() == self.server.store.tables()

    def test_clash(self, transaction, mark, reason):
        """A commit conflicts where something was altered after it was touched, and names the first place."""
        altered = [
            place for key, first in transaction.touched.items() for place in range(first, mark)
            if value_at(self.tables[place], key) is not value_at(self.tables[place + 1], key)]
        if not reason.startswith("conflict "):
            assert not altered
            return
        place = int(reason.split()[1])
        assert place < mark and all(place <= other for other in altered)
        touched = [key for key, first in transaction.touched.items() if first <= place]
        assert place in altered or any(self.alters_within(place, key) for key in touched)

    def alters_within(self, place, key):
        """Whether an entry after which a key has what it had before altered it in between, or removed what it never stood in."""
        contents = row_samples.Contents()
        contents.spaces, contents.objects, contents.arrays = map(dict, self.tables[place])
        for operation in self.server.store.operations[place]:
            before = value_at(contents.tables(), key)
            contents.do(operation)
            if value_at(contents.tables(), key) is not before:
                return True
            if operation[0] == "delete_object" and key[0] == "array" and key[1][0] == operation[1]:
                return True
            if operation[0] == "drop_space" and transactions.path_of(key) == operation[1]:
                return True
        return False


def test_laws():
    for name, how in CASES.items():
        laws = Laws(how["journal"])
        for frame in played(**how)[0]:
            laws.play(*frame)
        print(f"{name}: the laws hold of {laws.count} commits")
    for name, (_, text), bytes_in, bytes_out in transaction_captures.cases():
        test_written(name, text, bytes_in, bytes_out)


def test_written(name, text, bytes_in, bytes_out):
    read = tomllib.loads(text)
    channels = [dict(channel, uom="") for channel in read.get("channel", [])]
    server = transactions.Server(channels, 65_536, read.get("journal", 4_194_304), read.get("types"))
    answers = [reply for frame in wire.read_frames(bytes_in) for reply in server.play(*frame[1:])]
    assert wire.MAGIC + b"".join(answers) == bytes_out
    print(f"{name}: {len(answers)} frames are those that are written out")


def write_journal(folder):
    [case] = transaction_captures.cases([transaction_captures.most_journal_bytes])
    name, (_, text), bytes_in, bytes_out = case
    test_written(name, text, bytes_in, bytes_out)
    (folder / "config.toml").write_text(text)
    (folder / "capture").write_bytes(bytes_in)
    (folder / "answers").write_bytes(bytes_out)


def count():
    """How many transactions of each capture were committed, met a conflict or a full journal, or were rolled back."""
    for name, how in CASES.items():
        ends = {}
        for answer in played(**how)[1]:
            for frame in wire.read_frames(wire.MAGIC + answer):
                if frame.kind == 17:
                    header, _, value = wire.read_message(frame.data, "S")
                    if header["protocol"] == 18 and header["messageType"] in (5, 6):
                        end = "rolled back" if header["messageType"] == 6 else value["failureReason"].rstrip("0123456789 ") or "committed"
                        ends[end] = ends.get(end, 0) + 1
        print(name, *(f"{end} {number}" for end, number in sorted(ends.items())))


def main():
    match sys.argv[1:]:
        case ["laws"]:
            test_laws()
        case ["count"]:
            count()
        case ["journal", folder]:
            write_journal(pathlib.Path(folder))
        case _:
            sys.exit("laws, count or journal FOLDER")


if __name__ == "__main__":
    main()
