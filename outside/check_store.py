#!/usr/bin/env python3
"""The lines of the program check_store, and their results, computed by a store of plain lists and tables.

`cases` prints the lines, and `answer` what each gives. A line begins a store, prints its journal, or is a call of a session at
a moment; the items of a call come after a colon, separated by semicolons:

    limits                             the greatest numbers of the profile, by their names
    store JOURNAL TYPES KINDS          a store whose journal takes so many entries, with channels of these kinds
    journal                            each entry of the journal
    BY AT enter                        lets a session in
    BY AT spaces [NEWER]               the dataspaces, or those written after a moment
    BY AT put_spaces:NAME PATH CUSTOM  puts dataspaces
    BY AT drop_spaces:NAME PATH        drops dataspaces
    BY AT look:WANT                    what is at keys: space PATH, known URI, object URI, array URI PATH, shape URI PATH or
                                       slice URI PATH STARTS COUNTS
    BY AT put:NAME AT KEY WHAT         operations. A key is space/PATH, object/SPACE/TYPE/NUMBER or array/SPACE/TYPE/NUMBER/PATH, and
                                       what is done is gone, object URI OTHERS NAME CHANGED ACTIVE CUSTOM FORMAT DATA,
                                       array DIMS PREFERRED KIND ELEMENTS LOGICAL CUSTOM or patch STARTS COUNTS KIND ELEMENTS
    BY AT commit:ITEM                  commits a transaction. An item is touch KEY MARK, a key and the length that the journal had when it
                                       was touched, or do AT KEY WHAT, an operation
    BY AT append:CHANNEL INDEX VALUE   adds points; an index may be FROM+COUNT, for so many points from there on
    BY AT replace CHANNELS FROM TO:CHANNEL INDEX VALUE
    BY AT truncate:NAME CHANNEL END
    BY AT range:CHANNEL FROM TO
    BY AT meta:NAME URI                channels by their URIs

A URI is three words, SPACE TYPE NUMBER; the type `-` is that of a dataspace's URI. A channel's is the type Channel and its number, in the
dataspace `w` where the number is odd. `-` is the empty text, list or table. A value is a letter and its content: n for null, b, i, l, f, d
(floats by their bits), s (text), x (bytes), L (a list of longs), S (a list of texts). A text may be PIECE*COUNT, and is shown by its
length if it is long.
"""
import random
import sys

FAR = 2 ** 62
JOURNAL_BYTES = 536870912
PAYLOAD = 67108864
POINTS = 1048576
PROFILE = [
    ("index", FAR), ("rank", 8), ("elements", 4194304), ("element bytes", 33554432), ("operations", 4096), ("touched keys", 16384),
    ("staged bytes", 67108864), ("payload", PAYLOAD), ("journal bytes", JOURNAL_BYTES), ("changes", 256), ("change bytes", 67108864),
    ("points", POINTS), ("point bytes", 67108864),
]
ELEMENT_BYTES = {"boolean": 1, "int": 4, "long": 8, "float": 4, "double": 8, "bytes": 1}
KINDS = ["boolean", "int", "long", "float", "double", "string", "bytes"]
LETTERS = dict(zip("bilfdsx", KINDS))


# ---- words

def text(word):
    if "*" in word:
        piece, count = word.split("*")
        return piece * int(count)
    return "" if word == "-" else word


def items_of(word):
    return [] if word == "-" else word.split(",")


def numbers(word):
    return [int(item) for item in items_of(word)]


def value_of(word):
    letter, rest = word[0], word[1:]
    if letter == "n":
        return ("n", None)
    if letter == "L":
        return ("L", [int(item) for item in rest.split("+")])
    if letter == "S":
        return ("S", rest.split("+"))
    if letter in "sx":
        return (letter, text(rest).encode())
    return (letter, int(rest))


def custom_of(word):
    pairs = [pair.split("=") for pair in items_of(word)]
    return sorted((name.encode(), value_of(value)) for name, value in pairs)


def elements(kind, word):
    items = items_of(word)
    if kind == "string":
        return (kind, [text(item).encode() for item in items])
    if kind == "boolean":
        return (kind, [item == "true" for item in items])
    return (kind, [int(item) for item in items])


def uri_of(space, kind, number):
    path = text(space)
    front = "eml:///dataspace('%s')" % path.replace("'", "''") if path else "eml:///"
    if kind == "-":
        return front
    name = "witsml21.%s(00000000-0000-0000-0000-0000000000%02x)" % (kind, int(number))
    return front + ("/" if path else "") + name


def key_of(word):
    """A key: the path of its dataspace, the URI of its object, and the path of its array, as far as it has them."""
    kind, space, *rest = word.split("/")
    return (text(space), uri_of(space, *rest[:2]) if rest else None, text(rest[2]) if kind == "array" else None)


def changes_key(change, key):
    """Whether a change is one of a key: a removed object takes its arrays along, and a dropped dataspace all that is in it."""
    kind, what = change
    return what == {"key": key, "object": key[:2], "space": key[:1]}[kind]


# ---- what things count

def key_bytes(key):
    space, uri, path = key
    return len((uri or space).encode()) + len((path or "").encode())


def point_bytes(value):
    letter, content = value
    if letter in "sx":
        return 16 + len(content)
    return 16 + {"n": 0, "b": 1, "i": 4, "f": 4, "l": 8, "d": 8}[letter]


def weight(custom):
    sums = 0
    for name, (letter, content) in custom:
        sums += len(name)
        if letter in "sx":
            sums += 8 + len(content)
        elif letter == "L":
            sums += 8 + 8 * len(content)
        elif letter == "S":
            sums += 8 + sum(8 + len(item.encode()) for item in content)
        else:
            sums += 8
    return sums


def array_bytes(values):
    kind, items = values
    if kind == "string":
        return sum(8 + len(item) for item in items)
    return ELEMENT_BYTES[kind] * len(items)


def product(dims):
    result = 1
    for dim in dims:
        result *= dim
    return result


# ---- what is shown

def shown_text(encoded):
    return encoded.decode() if len(encoded) <= 64 else "#%d" % len(encoded)


def shown_bytes(content):
    return "".join(".%d" % byte for byte in content) if len(content) <= 64 else "#%d" % len(content)


def shown_value(value):
    letter, content = value
    if letter == "n":
        return "n"
    if letter == "L":
        return "L%s" % content
    if letter == "S":
        return "S" + "".join("+" + item for item in content)
    if letter == "s":
        return "s" + shown_text(content)
    if letter == "x":
        return "x" + shown_bytes(content)
    return "%s%d" % (letter, content)


def shown_custom(custom):
    return "{" + "".join(" %s=%s" % (name.decode(), shown_value(value)) for name, value in custom) + " }"


def shown_elements(values):
    kind, items = values
    if kind == "string":
        words = [shown_text(item) for item in items]
    elif kind == "boolean":
        words = ["true" if item else "false" for item in items]
    else:
        words = [str(item) for item in items]
    return kind + "".join(" " + word for word in words)


def optional(index):
    return "none" if index is None else str(index)


# ---- arrays

def places(dims, starts, counts):
    """The places of a region's elements, row by row."""
    found = [] if 0 in counts else [0]
    for dim, start, count in zip(dims, starts, counts):
        found = [place * dim + start + step for place in found for step in range(count)]
    return found


def region_code(dims, starts, counts):
    if len(starts) != len(dims) or len(counts) != len(dims):
        return 5
    for dim, start, count in zip(dims, starts, counts):
        if start < 0 or count < 0 or start + count > dim:
            return 5
    return None


def is_array(dims, values):
    if not 1 <= len(dims) <= 8 or any(dim < 0 for dim in dims) or product(dims) != len(values[1]):
        return False
    return len(values[1]) <= 4194304 and array_bytes(values) <= 33554432


# ---- operations

class Operation:
    """An operation by its words: AT KEY WHAT."""

    def __init__(self, item):
        at, key, self.what, *words = item
        self.at, self.key, (self.kind, *self.words) = int(at), key_of(key), key.split("/")
        if self.what == "object":
            self.uri = uri_of(*words[:3])
            others, name, changed, active, custom, format, data = words[3:]
            self.object = {
                "others": [text(other).encode() for other in items_of(others)], "name": text(name).encode(), "changed": int(changed),
                "active": int(active), "custom": custom_of(custom), "format": text(format).encode(), "data": text(data).encode()}
        elif self.what == "array":
            dims, preferred, branch, items, logical, custom = words
            self.array = {
                "dims": numbers(dims), "preferred": numbers(preferred), "values": elements(branch, items), "logical": int(logical),
                "custom": custom_of(custom)}
        elif self.what == "patch":
            starts, counts, branch, items = words
            self.starts, self.counts, self.values = numbers(starts), numbers(counts), elements(branch, items)

    def suits(self):
        """Whether what is done goes with the key."""
        if self.what == "object":
            return self.kind == "object" and self.uri == self.key[1]
        if self.what == "gone":
            return self.kind == "object"
        return self.kind == "array" and (self.what == "patch" or is_array(self.array["dims"], self.array["values"]))

    def change(self):
        return ("object", self.key[:2]) if self.what == "gone" else ("key", self.key)

    def counted(self):
        return key_bytes(self.key) + self.content_bytes()

    def content_bytes(self):
        if self.what == "object":
            texts = [self.object["name"], self.object["format"], self.object["data"]] + self.object["others"]
            return 256 + sum(len(item) for item in texts) + weight(self.object["custom"])
        if self.what == "gone":
            return 64
        if self.what == "array":
            return 256 + array_bytes(self.array["values"]) + weight(self.array["custom"])
        return 256 + array_bytes(self.values)


# ---- the store

class Store:
    def __init__(self, journal, types, kinds):
        self.limit = int(journal)
        self.kinds = items_of(kinds)
        self.points = [[] for _ in self.kinds]
        self.uris = {uri_of("w" if i % 2 else "-", "Channel", i): i for i in range(len(self.kinds))}
        self.journal = [(0, 0, 0, "enter")]
        self.changes = [[]]
        self.bytes = 64
        self.spaces = {"": {"written": 0, "created": 0, "custom": []}}
        self.objects = {}
        self.arrays = {}

    def add(self, by, at, act, counted, changes=()):
        """Adds an entry with its changes of keys, where the journal has room."""
        if len(self.journal) >= self.limit or self.bytes + 64 + counted > JOURNAL_BYTES:
            return False
        nth = sum(1 for entry in self.journal if entry[0] == by)
        self.journal.append((by, nth, at, act))
        self.changes.append(list(changes))
        self.bytes += 64 + counted
        return True

    def is_session(self, by):
        return by < len(self.journal) and self.journal[by][3] == "enter"

    # -- dataspaces

    def enter(self, by, at, items):
        place = len(self.journal)
        return ["entered %d" % place] if self.add(place, at, "enter", 0) else ["journal full"]

    def list_spaces(self, newer):
        paths = sorted((path for path in self.spaces if newer is None or self.spaces[path]["written"] > newer), key=str.encode)
        return ["spaces %d" % len(paths)] + [" " + self.shown_space(path, self.spaces[path]) for path in paths]

    def shown_space(self, path, space):
        return "space %s written %d created %d %s" % (path, space["written"], space["created"], shown_custom(space["custom"]))

    def judged(self, by, at, items, act, judge):
        """Judges named items in order over a copy that the accepted ones change, and keeps it where they make an entry."""
        before = dict(self.spaces), dict(self.objects), dict(self.arrays), self.points
        verdicts, changes, counted = [], [], 0
        for item in sorted(items, key=lambda item: item[0].encode()):
            code, count, change = judge(item)
            verdicts.append(" %s %s" % (item[0], "accepted" if code is None else "refused %d" % code))
            if code is None:
                changes.append(change)
                counted += count
        if changes and not self.add(by, at, "%s %d" % (act, len(changes)), counted, filter(None, changes)):
            self.spaces, self.objects, self.arrays, self.points = before
            return ["journal full"]
        return ["verdicts %d" % len(verdicts)] + verdicts

    def put_spaces(self, by, at, items):
        def judge(item):
            path, custom = text(item[1]), custom_of(item[2])
            if path == "":
                return 6, 0, None
            created = self.spaces.get(path, {"created": at})["created"]
            self.spaces[path] = {"written": at, "created": created, "custom": custom}
            return None, 64 + len(path.encode()) + weight(custom), ("key", (path, None, None))
        return self.judged(by, at, items, "put_spaces", judge)

    def drop_spaces(self, by, at, items):
        def judge(item):
            path = text(item[1])
            if path == "":
                return 6, 0, None
            if path not in self.spaces:
                return 11, 0, None
            del self.spaces[path]
            self.objects = {key: object for key, object in self.objects.items() if object["space"] != path}
            self.arrays = {key: array for key, array in self.arrays.items() if array["space"] != path}
            return None, 64 + len(path.encode()), ("space", (path,))
        return self.judged(by, at, items, "drop_spaces", judge)

    # -- objects and arrays

    def put(self, by, at, items):
        return self.judged(by, at, items, "put", self.operate)

    def operate(self, item):
        """Does an operation, or gives the code by which it is refused."""
        op = Operation(item[1:])
        code = self.op_code(op) if op.suits() else 5
        if code is not None:
            return code, 0, None
        self.do(op)
        return None, op.counted(), op.change()

    def op_code(self, op):
        """The code with which the store, as it is, refuses an operation."""
        if op.what == "object":
            return None if op.key[0] in self.spaces else 11
        if op.what == "gone":
            return None if op.key[1] in self.objects else 11
        if op.what == "array":
            return None if op.key[1] in self.objects else 11
        found = self.arrays.get(op.key[1:])
        return self.patch_code(found, op.starts, op.counts, op.values) if found else 11

    def do(self, op):
        """Does an operation on its key, whatever the store has there."""
        space, uri, path = op.key
        if op.what == "object":
            made = self.objects.get(uri, {"created": op.at})["created"]
            self.objects[uri] = dict(op.object, space=space, words=op.words, written=op.at, created=made)
        elif op.what == "gone":
            self.objects.pop(uri, None)
            self.arrays = {key: array for key, array in self.arrays.items() if key[0] != uri}
        elif op.what == "array":
            made = self.arrays.get((uri, path), {"created": op.at})["created"]
            self.arrays[uri, path] = dict(op.array, space=space, words=op.words, written=op.at, created=made)
        else:
            found = self.arrays.get((uri, path))
            if found and self.patch_code(found, op.starts, op.counts, op.values) is None:
                patched = self.patched(found, op.starts, op.counts, op.values)
                self.arrays[uri, path] = dict(found, values=(op.values[0], patched), written=op.at)

    def commit(self, by, at, items):
        touched = [(key_of(word), int(mark)) for kind, word, mark in (item for item in items if item[0] == "touch")]
        ops = [Operation(item[1:]) for item in items if item[0] == "do"]
        places = [self.first_change(key, mark) for key, mark in touched]
        places = [place for place in places if place is not None]
        if places:
            return ["conflict %d" % min(places)]
        if not ops:
            return ["committed"]
        counted = sum(op.counted() for op in ops) + sum(64 + key_bytes(key) for key, _ in touched)
        suiting = [op for op in ops if op.suits()]
        if not self.add(by, at, "commit %d %d" % (len(ops), len(touched)), counted, [op.change() for op in suiting]):
            return ["journal full"]
        for op in suiting:
            self.do(op)
        return ["committed"]

    def first_change(self, key, mark):
        """The first place from a mark on whose entry changed a key."""
        places = range(mark, len(self.changes))
        return next((place for place in places if any(changes_key(change, key) for change in self.changes[place])), None)

    def patched(self, array, starts, counts, values):
        patched = list(array["values"][1])
        for place, element in zip(places(array["dims"], starts, counts), values[1]):
            patched[place] = element
        return patched

    def patch_code(self, array, starts, counts, values):
        code = region_code(array["dims"], starts, counts)
        if code is not None:
            return code
        if values[0] != array["values"][0] or product(counts) != len(values[1]):
            return 5
        return 17 if array_bytes((values[0], self.patched(array, starts, counts, values))) > 33554432 else None

    def look(self, by, at, items):
        lines, given = ["looked %d" % len(items)], 0
        for kind, *words in items:
            payload, line = getattr(self, "see_" + kind)(*words)
            if given + payload > PAYLOAD:
                line = "refused 12"
            else:
                given += payload
            lines.append(" " + line)
        return lines

    def see_space(self, path):
        space = self.spaces.get(text(path))
        return 0, self.shown_space(text(path), space) if space else "missing"

    def see_known(self, *uri):
        found = self.objects.get(uri_of(*uri))
        return 0, "known created %d" % found["created"] if found else "missing"

    def see_object(self, *uri):
        found = self.objects.get(uri_of(*uri))
        if not found:
            return 0, "missing"
        others = "".join(" " + shown_text(other) for other in found["others"])
        return len(found["data"]), "object %s others%s name %s changed %d active %d custom %s format %s data %s written %d created %d" % (
            uri_of(*uri), others, shown_text(found["name"]), found["changed"], found["active"], shown_custom(found["custom"]),
            shown_text(found["format"]), shown_bytes(found["data"]), found["written"], found["created"])

    def array_at(self, words):
        return self.arrays.get((uri_of(*words[:3]), text(words[3])))

    def see_array(self, *words):
        found = self.array_at(words)
        if not found:
            return 0, "missing"
        return array_bytes(found["values"]), "array %s preferred %s logical %d custom %s written %d created %d %s" % (
            found["dims"], found["preferred"], found["logical"], shown_custom(found["custom"]), found["written"], found["created"],
            shown_elements(found["values"]))

    def see_shape(self, *words):
        found = self.array_at(words)
        if not found:
            return 0, "missing"
        branch = ["boolean", "int", "long", "float", "double", "string", "bytes"].index(found["values"][0])
        return 0, "shape %s preferred %s branch %d logical %d custom %s written %d created %d" % (
            found["dims"], found["preferred"], branch, found["logical"], shown_custom(found["custom"]), found["written"], found["created"])

    def see_slice(self, *words):
        found = self.array_at(words)
        if not found:
            return 0, "missing"
        starts, counts = numbers(words[4]), numbers(words[5])
        if region_code(found["dims"], starts, counts) is not None:
            return 0, "refused 5"
        kind, items = found["values"]
        window = (kind, [items[place] for place in places(found["dims"], starts, counts)])
        return array_bytes(window), "slice " + shown_elements(window)

    # -- channels

    def is_channel(self, channel):
        return 0 <= channel < len(self.kinds)

    def suits(self, channel, value):
        return value[0] == "n" or LETTERS.get(value[0]) == self.kinds[channel]

    def given_points(self, items):
        points = []
        for channel, index, value in items:
            first, _, count = index.partition("+")
            points += [(int(channel), int(first) + step, value_of(value)) for step in range(int(count or 1))]
        return points

    def append(self, by, at, items):
        points = self.given_points(items)
        for channel, index, value in points:
            if not self.is_channel(channel):
                return ["refused 11"]
            if not -FAR <= index <= FAR or not self.suits(channel, value):
                return ["refused 5"]
        last = {channel: held[-1][0] for channel, held in enumerate(self.points) if held}
        for channel, index, _ in points:
            if channel in last and index <= last[channel]:
                return ["refused 31"]
            last[channel] = index
        if not points:
            return ["written"]
        if not self.add(by, at, "append %d" % len(points), sum(point_bytes(value) for _, _, value in points)):
            return ["journal full"]
        for channel, index, value in points:
            self.points[channel].append((index, value))
        return ["written"]

    def replace(self, by, at, items, channels, start, end):
        channels, start, end, points = numbers(channels), int(start), int(end), self.given_points(items)
        for place, channel in enumerate(channels):
            if not self.is_channel(channel):
                return ["refused 11"]
            if channel in channels[:place]:
                return ["refused 5"]
        if not -FAR <= start <= end <= FAR:
            return ["refused 5"]
        for channel, index, value in points:
            if channel not in channels or not self.suits(channel, value) or not start <= index <= end:
                return ["refused 5"]
        last = {}
        for channel, index, _ in points:
            if channel in last and index <= last[channel]:
                return ["refused 31"]
            last[channel] = index
        if not channels:
            return ["written"]
        counted = 32 * len(channels) + sum(point_bytes(value) for _, _, value in points)
        if not self.add(by, at, "replace %s %d %d %d" % (channels, start, end, len(points)), counted):
            return ["journal full"]
        for channel in channels:
            held = [point for point in self.points[channel] if not start <= point[0] <= end]
            held += [(index, value) for of, index, value in points if of == channel]
            self.points[channel] = sorted(held, key=lambda point: point[0])
        return ["written"]

    def truncate(self, by, at, items):
        named, points = set(), self.points
        self.points = [list(held) for held in points]

        def judge(item):
            channel, end = int(item[1]), int(item[2])
            earlier = channel in named
            named.add(channel)
            if not self.is_channel(channel):
                return 11, 0, None
            if not -FAR <= end <= FAR or earlier:
                return 5, 0, None
            self.points[channel] = [point for point in self.points[channel] if point[0] <= end]
            return None, 16, None
        lines = self.judged(by, at, items, "truncate", judge)
        if lines == ["journal full"]:
            self.points = points
        return lines

    def range(self, by, at, items):
        found, counted = [], 0
        for channel, start, end in items:
            channel, start, end = int(channel), int(start), int(end)
            if not self.is_channel(channel):
                return ["refused 11"]
            if start > end:
                return ["refused 5"]
            points = [(channel, index, value) for index, value in self.points[channel] if start <= index <= end]
            counted += sum(point_bytes(value) for _, _, value in points)
            found += points
            if len(found) > POINTS or counted > PAYLOAD:
                return ["refused 12"]
        if len(found) > 1000:
            return ["points %d from %d to %d" % (len(found), found[0][1], found[-1][1])]
        return ["points %d" % len(found)] + [" %d %d %s" % (channel, index, shown_value(value)) for channel, index, value in found]

    def meta(self, by, at, items):
        lines = []
        for name, *uri in sorted(items, key=lambda item: item[0].encode()):
            channel = self.uris.get(uri_of(*uri))
            if channel is None:
                lines.append(" %s refused 11" % name)
            else:
                held = self.points[channel]
                first, last = (held[0][0], held[-1][0]) if held else (None, None)
                lines.append(" %s channel %d first %s last %s" % (name, channel, optional(first), optional(last)))
        return ["metas %d" % len(lines)] + lines

    # -- lines

    def call(self, line):
        head, _, rest = line.partition(":")
        by, at, name, *words = head.split(" ")
        items = [item.split(" ") for item in rest.split(";")] if rest else []
        by, at = int(by), int(at)
        if name != "enter" and not self.is_session(by):
            return ["no session"]
        mark = len(self.journal)
        if name == "spaces":
            lines = self.list_spaces(int(words[0]) if words else None)
        else:
            lines = getattr(self, name)(by, at, items, *words)
        return ["mark %d entries %d %s" % (mark, len(self.journal), lines[0])] + lines[1:]

    def entries(self):
        return ["%d by %d nth %d at %d %s" % (place, *entry) for place, entry in enumerate(self.journal)]


class Player:
    def __init__(self):
        self.store = None

    def answer(self, line):
        word, *words = line.split(" ")
        if word == "store":
            self.store = Store(*words)
            return ["new store"]
        if word == "limits":
            return ["%s %d" % limit for limit in PROFILE]
        return self.store.entries() if word == "journal" else self.store.call(line)


# ---- the lines

LIMITS = """\
store 4194304 any bytes,long,string
0 1 append:0 0 x7*33554416;0 1 x8*33554416
0 1 range:0 0 1
0 1 append:0 2 n
0 1 range:0 0 2
0 1 range:0 0 1;1 0 0
0 1 range:0 0 0;0 0 0;0 2 2
0 1 range:0 0 0;0 2 2;0 1 1;7 0 0
0 1 range:0 0 0;7 0 0;0 1 1;0 2 2
0 1 append:1 0+524288 l5
0 1 range:1 0 524287;1 0 524287
0 1 range:1 0 524287;2 0 5;1 0 524287
0 1 range:1 0 524287;1 0 524287;1 5 5
0 1 range:1 0 524287;1 5 5;1 0 524287
0 1 range:1 524280 600000
0 1 truncate:a 1 3;b 0 -1
0 1 range:1 -9 9;0 -9 9
0 5 put:a 5 object/-/Well/1 object - Well 1 - - 0 0 - xml 7*67108864
0 5 look:object - Well 1
0 6 put:a 6 object/-/Well/2 object - Well 2 - - 0 0 - xml 7;b 6 object/-/Well/3 object - Well 3 - - 0 0 - xml -
0 6 look:object - Well 1;object - Well 2;object - Well 3;known - Well 2;object - Well 1
0 6 look:object - Well 2;object - Well 1;object - Well 2
0 7 put:a 7 array/-/Well/1/s array 2 - string x,y 0 -;b 7 array/-/Well/1/b array 3 - bytes 1,2,3 0 -
0 7 look:array - Well 1 s;slice - Well 1 s 1 1;shape - Well 1 s
0 8 put:a 8 array/-/Well/1/s patch 0 1 string z*20000000
0 8 put:a 9 array/-/Well/1/s patch 1 1 string z*20000000
0 8 put:a 9 array/-/Well/1/s patch 1 1 string z*13554416
0 8 put:a 9 array/-/Well/1/s patch 1 1 string z*13554417
0 8 look:shape - Well 1 s;slice - Well 1 s 0 1;slice - Well 1 s 0 2
0 8 look:array - Well 1 s;array - Well 1 s;array - Well 1 b;slice - Well 1 b 1 2
0 8 look:array - Well 1 b;array - Well 1 s;array - Well 1 s;slice - Well 1 b 1 0
journal
store 50 any bytes
0 1 append:0 1 x1*67108700
0 1 append:0 2 x1*67108700
0 1 append:0 3 x1*67108700
0 1 append:0 4 x1*67108700
0 1 truncate:a 0 0
0 1 append:0 5 x1*67108700
0 1 append:0 6 x1*67108700
0 1 append:0 7 x1*67108700
0 1 append:0 8 x1*67109020
0 1 append:0 9 x1*129
0 1 append:0 8 x1*129
0 1 commit:touch space/- 10;do 1 object/-/Well/1 gone
0 1 commit:do 1 array/-/Well/1/p*23 gone
0 1 commit:touch space/- 10;touch object/-/Well/1 10;touch object/-/Well/2 10;touch array/-/Well/1/p 10
0 1 enter
10 1 append:0 9 n;0 10 n;0 11 n;0 12 n;0 13 n;0 14 n
10 1 commit:do 1 space/p*17 gone
10 1 replace 0 9 20:0 9 n;0 10 n;0 11 n;0 12 n
10 1 replace 0 9 20:0 9 n;0 10 n;0 11 n
10 1 append:0 9 n
10 1 append:0 12 n
10 1 append
10 1 replace - 0 1
10 1 truncate:a 0 0
10 1 put_spaces:a w -;b - -
10 1 put_spaces:b - -
10 1 drop_spaces:a w
10 1 put:a 5 object/-/Well/1 object - Well 1 - - 0 0 - xml -
10 1 range:0 5 7
10 1 range:0 5 5;0 9 20
10 1 meta:a - Channel 0
10 1 commit:do 1 space/- gone
10 1 commit:touch space/- 0
0 1 enter
journal"""

ORDER = """\
store 20 any long,int
0 1 append:0 1 l5;1 1 i5
0 1 append:0 1 l5;9 1 n
0 1 append:0 1 l5;1 2 l5
0 1 append:0 4611686018427387905 n;9 1 n
0 1 append:9 1 n;0 4611686018427387905 n
0 1 append:0 2 b1;0 1 n
0 1 append:0 2 l1;1 2 i1;0 2 l2
0 1 append:0 2 l1;1 2 i1;0 3 l2
0 1 replace 9 5 1
0 1 replace 0,0,9 5 1
0 1 replace 0,9,0 1 5
0 1 replace 0 5 1:0 1 n
0 1 replace 0 1 5:0 1 n;0 1 n;1 2 n
0 1 replace 0,1 1 5:0 1 n;0 1 n;1 2 n
0 1 replace 0,1 3 1:0 2 n
0 1 replace 0,1 -4611686018427387905 1
0 1 replace 0,1 2 5:0 2 n;1 2 n;0 5 l9
0 1 range:0 0 9;1 0 9
0 1 truncate:a 9 4611686018427387905;b 0 4611686018427387905;c 0 1;d 1 1
0 1 truncate:a 9 1;b 9 1;c 0 3;d 0 4
0 1 range:0 5 1;9 0 0
0 1 range:9 0 0;0 5 1
0 1 put:a 1 array/x/Well/1/p array 2 - int 1 0 -;b 2 object/x/Well/1 object w Well 1 - - 0 0 - xml -;c 3 space/x gone
0 1 put:a 1 array/x/Well/1/p array 1 - int 1 0 -;b 2 object/x/Well/1 object x Well 1 - - 0 0 - xml -;c 3 object/x/Well/1 gone
0 1 put_spaces:b x k=l1;a x k=l2
0 2 put:c 3 array/x/Well/1/p array 1 - int 1 0 -;b 2 object/x/Well/1 object x Well 1 - - 0 0 - xml -;d 4 array/x/Well/1/p patch 0 1 int 7
0 2 look:array x Well 1 p;object x Well 1;space x
0 2 look:slice x Well 1 p 0 1;slice x Well 1 p 0 2;slice x Well 1 p 1 1;slice x Well 1 p 1 0;slice x Well 1 p 2 0
0 2 put:a 2 array/x/Well/1/p patch 1 1 int 3;b 2 array/x/Well/1/p patch 0 2 int 3,4;c 2 array/x/Well/1/p patch 1 0 int -
0 3 put:a 5 array/x/Well/1/p patch 1,2 1 long 7,8;b 6 array/x/Well/1/p patch 1 1 long 7,8;c 7 array/x/Well/1/p patch 0 1 long 7,8;d 8 array/x/Well/1/q patch 0 1 int 7
0 3 put:a 5 object/x/Well/1 gone;b 6 object/x/Well/1 object x Well 1 - - 0 0 - xml -;c 7 array/x/Well/1/p patch 0 1 int 7
0 3 look:array x Well 1 p;object x Well 1
0 4 drop_spaces:b x;a x
0 4 put_spaces:a x -
0 4 look:object x Well 1;space x
journal"""

COMMITS = """\
store 40 any long
0 1 enter
0 1 enter
0 1 enter
1 2 put:a 2 object/-/Well/1 object - Well 1 - - 0 0 - xml x
1 9 commit:touch object/-/Well/1 5;touch space/- 5;do 3 object/-/Well/1 object - Well 1 - - 0 0 - xml y
2 9 commit:touch object/-/Well/1 5;touch space/- 5;do 4 object/-/Well/1 object - Well 1 - - 0 0 - xml z
3 9 commit:touch object/-/Well/1 5;touch object/-/Well/2 5;touch space/- 5;do 5 object/-/Well/2 object - Well 2 - - 0 0 - xml z
3 9 look:object - Well 1;object - Well 2
3 9 commit:touch object/-/Well/1 6;touch object/-/Well/2 6;touch space/- 6;do 5 object/-/Well/2 object - Well 2 - - 0 0 - xml z
3 9 commit:touch object/-/Well/2 0;touch object/-/Well/1 0
3 9 commit:touch object/-/Well/1 0;touch object/-/Well/2 0
3 9 commit:touch object/-/Well/2 6;touch object/-/Well/1 5
3 9 commit:touch object/-/Well/2 7;touch object/-/Well/2 6;touch object/-/Well/1 6
3 9 commit:touch space/- 0;touch object/-/Well/3 0;touch array/-/Well/1/p 0;touch object/-/Well/2 7;touch object/-/Well/2 18446744073709551615
0 9 put_spaces:a w -
0 9 commit:touch object/w/Well/9 0;touch array/w/Well/9/p 0;touch space/v 0
0 9 commit:touch object/w/Well/9 0;touch space/w 7
0 9 put:a 9 object/w/Well/1 object w Well 1 - - 0 0 - xml -
0 9 put:a 9 array/w/Well/1/p array 2 - long 1,2 0 -
0 9 commit:touch space/w 8;touch object/w/Well/1 9;touch array/w/Well/1/q 0;touch array/w/Well/2/p 0
0 9 commit:touch array/w/Well/1/p 9
0 9 put:a 9 object/w/Well/1 gone
0 9 commit:touch array/w/Well/1/q 0
0 9 commit:touch array/w/Well/2/p 0;touch object/w/Well/2 0;touch space/w 8;touch array/-/Well/1/p 0
0 9 commit:touch object/w/Well/1 10;touch array/w/Well/1/p 10
0 9 drop_spaces:a w
0 9 commit:touch object/w/Well/9 0
0 9 commit:touch array/w/Well/9/p 0
0 9 commit:touch array/w/Log/1/q 0;touch space/w 8
0 9 commit:touch space/w 12;touch object/w/Well/1 12;touch array/w/Well/1/p 12;touch space/v 0;touch space/- 0
0 9 append:0 1 n
0 9 commit:touch space/w 12;touch object/w/Well/1 12;do -5 object/w/Well/1 object w Well 1 eml:///,x N 3 1 k=l1 xml -;do 6 array/w/Well/2/p array 2,2 1,1 int 1,2,3,4 4 k=n
0 9 look:object w Well 1;array w Well 2 p;space w
0 9 commit:touch array/w/Well/2/p 14;do 7 array/w/Well/2/p patch 0,1 2,1 int 8,9;do 8 array/w/Well/2/p patch 0,2 2,1 int 8,9;do 9 array/w/Well/2/p patch 0,0 1,1 long 5;do 10 array/w/Well/2/q patch 0 1 int 5
0 9 look:array w Well 2 p;array w Well 2 q
0 9 commit:touch array/w/Well/2/q 15;do 1 array/w/Well/2/q patch 0 1 int 5;do 2 array/w/Well/2/q array 2 - int 3,4 0 -;do 3 array/w/Well/2/q patch 1 1 int 5;do 4 array/w/Well/2/q patch 0 1 int 6
0 9 commit:touch array/w/Well/2/q 16;do 1 array/w/Well/2/q patch 0 1 int 5;do 2 array/w/Well/2/q array 2 - int 3,4 0 -;do 3 array/w/Well/2/q patch 1 1 int 5;do 4 array/w/Well/2/q patch 0 1 int 6
0 9 look:array w Well 2 p;array w Well 2 q;shape w Well 2 q
0 9 commit:do 1 object/w/Well/2 gone;do 2 array/w/Well/1/p gone;do 3 array/w/Well/1/p array 3 - int 1,2 0 -;do 4 object/w/Well/1 object w Well 3 - - 0 0 - xml -;do 5 space/w gone
0 9 look:array w Well 2 p;array w Well 2 q;object w Well 1;array w Well 1 p
0 9 commit:touch array/w/Well/1/p 17;touch object/w/Well/1 17;touch space/w 17;touch object/w/Well/3 17
0 9 commit:touch array/w/Well/2/p 17
0 9 commit:do 1 space/v gone
0 9 commit:touch space/v 0;touch space/- 0
0 9 commit:do 1 object/w/Well/3 object w Well 3 - - 0 0 - xml -;do 2 array/w/Well/3/p array 1 - long 1 0 -;do 3 object/w/Well/3 gone;do 4 object/w/Well/3 object w Well 3 - - 0 0 - xml -
0 9 look:object w Well 3;array w Well 3 p
0 9 commit
77 9 commit:touch space/- 0
journal
store 4 any long
0 1 put_spaces:a w -
0 1 commit:touch space/v 0;do 1 object/w/Well/1 object w Well 1 - - 0 0 - xml -
0 1 commit:touch object/w/Well/1 2;do 1 object/w/Well/1 gone
0 1 put_spaces:a v -
0 1 commit:touch object/w/Well/1 3;do 1 object/w/Well/1 gone
0 1 commit:touch object/w/Well/1 2;do 1 object/w/Well/1 gone
0 1 commit:touch object/w/Well/1 3
0 1 commit
0 1 look:object w Well 1
journal
store 20 any long
0 1 put_spaces:a w -
0 1 put:o 1 object/w/Well/1 object w Well 1 - - 0 0 - xml -;p 2 array/w/Well/1/p array 2,3 - int 1,2,3,4,5,6 0 -;q 3 array/w/Well/1/q array 3 - long 1,2,3 0 -;s 4 array/w/Well/1/s array 3 - string a,b,c 0 -;z 5 array/w/Well/1/b array 4 - bytes 1,2,3,4 0 -
0 60 look:array w Well 1 p;array w Well 1 q;array w Well 1 s;array w Well 1 b
0 40 commit:do 11 array/w/Well/1/p patch 0,0 1,2 int 7,8;do 12 array/w/Well/1/q patch 0 1 long 9;do 13 array/w/Well/1/p patch 1,1 1,2 int 5,5;do 14 array/w/Well/1/q patch 2 1 long 4;do 15 array/w/Well/1/p patch 0,2 2,1 int 3,3;do 16 array/w/Well/1/p patch 2,0 1,1 int 9;do 17 array/w/Well/1/p patch 0,0 1,1 long 1;do 18 array/w/Well/1/s patch 1 1 string zz;do 19 array/w/Well/1/s patch 0 2 string y,x;do 20 array/w/Well/1/b patch 1 2 bytes 8,9;do 21 array/w/Well/1/b patch 3 1 bytes 7;do 22 array/w/Well/1/p patch 0,0 1,1 int 6
0 60 look:array w Well 1 p;array w Well 1 q;array w Well 1 s;array w Well 1 b
0 40 commit:do 23 array/w/Well/1/p patch 0,0 1,1 int 1;do 24 object/w/Well/1 gone;do 25 array/w/Well/1/p patch 0,0 1,1 int 2;do 26 array/w/Well/1/q patch 0 1 long 2;do 27 object/w/Well/1 object w Well 1 - - 0 0 - xml -;do 28 array/w/Well/1/p array 2 - int 1,2 0 -;do 29 array/w/Well/1/p patch 0 1 int 3;do 30 array/w/Well/1/p patch 1 1 int 4;do 31 array/w/Well/1/p patch 0 2 int 5,6
0 60 look:array w Well 1 p;array w Well 1 q;array w Well 1 s;array w Well 1 b
0 60 look:shape w Well 1 p
0 40 commit:do 32 array/w/Well/1/p array 2 - int 8,8 0 -;do 33 array/w/Well/1/p patch 0 1 int 3;do 34 array/w/Well/1/p array 3 - int 8,8 0 -;do 35 array/w/Well/1/p patch 1 1 int 4;do 36 array/w/Well/1/q array 1 - double 0 0 -;do 37 array/w/Well/1/p patch 0 1 int 5;do 38 array/w/Well/1/q patch 0 1 double 1;do 39 array/w/Well/1/q patch 0 1 double 2
0 60 look:array w Well 1 p;array w Well 1 q;array w Well 1 s;array w Well 1 b
0 50 put:n0 41 array/w/Well/1/p patch 0 1 int 7;n1 42 array/w/Well/1/p patch 2 1 int 7;n2 43 array/w/Well/1/p patch 1 1 int 9;n3 44 array/w/Well/1/q patch 0 1 double 3;n4 45 array/w/Well/1/p patch 0 1 double 7;n5 46 array/w/Well/1/q patch 0 1 double 4;n6 47 array/w/Well/1/p patch 0 2 int 1,2;n7 48 object/w/Well/1 gone;n8 49 array/w/Well/1/p patch 0 1 int 1
0 60 look:array w Well 1 p;array w Well 1 q;array w Well 1 s;array w Well 1 b
journal"""

NAMES = ["a", "b", "c", "d", "aa", "B", "b1", "\u00e4"]
PATHS = ["-", "w", "v", "o'x", "\u00e4"]
TYPES = ["Well", "Well", "Log"]
STORES = [
    (700, "4194304 any long,double,string,bytes,boolean,int,float"),
    (300, "90 witsml21.Well,witsml21.* long,string"),
    (80, "14 none -"),
    (30, "2 any int"),
    (600, "100000 witsml21.Log long,long,long,double,double,string,string,bytes,bytes,float,int,boolean"),
    (260, "60 any double,long"),
]


class Draw:
    """Draws lines for a store from what is in it."""

    def __init__(self, draw, store):
        self.draw, self.store, self.at = draw, store, 10

    def one(self, *options):
        return self.draw.choice(options)

    def rare(self, times):
        return self.draw.randrange(times) == 0

    def names(self):
        return self.draw.sample(NAMES, self.one(1, 1, 2, 3, 4))

    def path(self):
        return self.draw.choice(PATHS)

    def present(self):
        """The path of a dataspace, mostly of one that exists."""
        path = self.path() if self.rare(5) else self.draw.choice(list(self.store.spaces))
        return path or "-"

    def moment(self):
        self.at += self.one(0, 1, 1, 2)
        return self.one(-5, 0, 3) if self.rare(12) else self.at

    def value(self, letter):
        if letter == "b":
            return "b%d" % self.one(0, 1)
        if letter == "i":
            return "i%d" % self.one(0, -1, 2 ** 31 - 1, -2 ** 31, 7)
        if letter == "l":
            return "l%d" % self.one(0, -1, 2 ** 63 - 1, -2 ** 63, 99)
        if letter == "f":
            return "f%d" % self.one(0, 2 ** 31, 0x7f800001, 0x3f800000)
        if letter == "d":
            return "d%d" % self.one(0, 2 ** 63, 0x7ff0000000000001, 0xfff8000000000000, 0x3ff0000000000000)
        return letter + self.one("-", "abc", "a*70", "x*3", "zz*33")

    def custom(self):
        if self.rare(2):
            return "-"
        keys = self.draw.sample(["k", "K", "key", "\u00e4"], self.one(1, 1, 2, 3))
        return ",".join("%s=%s" % (key, self.one("n", "L1+-2", "S+a+bc", self.value(self.draw.choice("bilfdsx")))) for key in keys)

    def uri(self):
        return [self.present(), "-" if self.rare(40) else self.draw.choice(TYPES), str(self.one(1, 1, 2, 3))]

    def object_uri(self):
        """The words of an object's URI, mostly of one that exists."""
        return self.uri() if not self.store.objects or self.rare(4) else list(self.draw.choice(list(self.store.objects.values()))["words"])

    def array_words(self):
        if not self.store.arrays or self.rare(4):
            return self.object_uri() + [self.one("p", "q")]
        return list(self.draw.choice(list(self.store.arrays.values()))["words"])

    def elements(self, kind, count):
        if count == 0:
            return "-"
        pick = {
            "boolean": ["true", "false"], "int": ["1", "-7", "2147483647"], "long": ["5", "-9223372036854775808"],
            "float": ["0", "2139095041"], "double": ["0", "9218868437227405313"], "string": ["a", "bcd", "e*70"], "bytes": ["0", "255", "9"]}[kind]
        return ",".join(self.draw.choice(pick) for _ in range(count))

    def listed(self, numbers):
        return ",".join(str(number) for number in numbers) or "-"

    def array(self):
        dims = [self.one(1, 2, 3, 2, 0) for _ in range(self.one(1, 1, 2, 2, 3))]
        kind, count = self.draw.choice(KINDS), product(dims)
        if self.rare(6):
            dims, count = self.draw.choice([([], 0), ([1] * 9, 1), ([-1], 1), ([2], 3), (dims, count + 1), ([2 ** 40, 0], 0), ([2 ** 40, 0, 1], 1)])
        return ["array", self.listed(dims), self.one("-", self.listed(dims), "-1"), kind, self.elements(kind, count), str(self.one(0, 4, 20)), self.custom()]

    def region(self, words):
        found = self.store.arrays.get((uri_of(*words[:3]), text(words[3])))
        return (found, *self.region_of(found["dims"] if found else [3]))

    def region_of(self, dims):
        starts = [self.draw.randrange(dim + 1) for dim in dims]
        counts = [self.draw.randrange(dim - start + 1) for dim, start in zip(dims, starts)]
        if self.rare(5):
            starts, counts = self.draw.choice([
                (starts, counts[1:]), (starts + [0], counts), ([-1] + starts[1:], counts), (starts, [count + 9 for count in counts]),
                ([FAR] + starts[1:], [FAR] + counts[1:]), (starts, [-1] * len(counts))])
        return starts, counts

    def patch(self, words):
        found, starts, counts = self.region(words)
        return self.patch_of(found["values"][0] if found else self.draw.choice(KINDS), starts, counts)

    def patch_of(self, kind, starts, counts):
        kind = self.draw.choice(KINDS) if self.rare(8) else kind
        count = product(counts) if 0 <= product(counts) < 100 else 1
        if self.rare(8):
            count += 1
        return ["patch", self.listed(starts), self.listed(counts), kind, self.elements(kind, count)]

    def operation(self, name):
        at, kind = str(self.moment()), self.draw.randrange(10)
        if kind < 3:
            uri = self.uri()
            under = self.uri() if self.rare(10) else uri
            key = "/".join(["object"] + under) if not self.rare(15) else self.one("space/w", "array/w/Well/1/p")
            what = ["object"] + uri + [self.one("-", "eml:///x,y"), self.one("-", "Name"), str(self.one(0, 3, -4)), str(self.one(0, 1)), self.custom(),
                                       self.one("xml", "json"), self.one("-", "abc", "data", "zz*50")]
            what[4] = what[4].replace("eml:///", "u")
        elif kind < 4:
            key, what = "/".join(["object"] + self.object_uri()), ["gone"]
            if self.rare(6):
                key = self.one("space/w", "array/" + "/".join(self.array_words()))
        elif kind < 7:
            key, what = "/".join(["array"] + self.object_uri() + [self.one("p", "q")]), self.array()
            if self.rare(15):
                key = self.one("space/w", "object/w/Well/1")
        else:
            words = self.array_words()
            key, what = "/".join(["array"] + words), self.patch(words)
            if self.rare(15):
                key = self.one("space/w", "object/w/Well/1")
        return [name, at, key] + what

    def key(self):
        kind = self.draw.randrange(6)
        if kind == 0:
            return "space/" + self.path()
        if kind < 4:
            return "/".join(["object"] + self.object_uri())
        return "/".join(["array"] + self.array_words())

    def mark(self, late):
        if self.rare(40):
            return self.one(0, len(self.store.journal) + 1, 2 ** 64 - 1)
        return max(0, len(self.store.journal) - self.one(*late))

    def staged_array(self):
        """The operations by which an array is set and then patched."""
        key, array = "/".join(["array"] + self.object_uri() + [self.one("p", "q", "r")]), self.array()
        patches = []
        for _ in range(self.one(1, 1, 2)):
            starts, counts = self.region_of([max(dim, 0) for dim in numbers(array[1])][:4])
            patches.append(self.patch_of(array[3], starts, counts))
        return [["do", str(self.moment()), key] + what for what in [array] + patches]

    def staged(self):
        """A transaction: what it does, and the keys that it touched, mostly those of what it does."""
        ops = [self.operation("do") for _ in range(self.one(0, 1, 1, 2, 3))]
        if self.rare(4):
            ops += self.staged_array()
        late = self.one([0], [0, 1], [0, 1, 2, 3], [1, 4, 9, 20], [20, 60, 200])
        keys = [op[2] for op in ops if not self.rare(6)] + [self.key() for _ in range(self.one(0, 0, 1, 2, 4))]
        keys = keys if self.rare(8) else list(dict.fromkeys(keys))
        items = [["touch", key, str(self.mark(late))] for key in keys] + ops
        if self.rare(4):
            self.draw.shuffle(items)
        return items

    def want(self):
        kind = self.draw.choice(["space", "known", "object", "object", "array", "array", "slice", "slice", "shape"])
        if kind == "space":
            return [kind, self.path()]
        if kind in ("known", "object"):
            return [kind] + self.object_uri()
        words = self.array_words()
        if kind == "slice":
            _, starts, counts = self.region(words)
            return [kind] + words + [self.listed(starts), self.listed(counts)]
        return [kind] + words

    def channel(self):
        return self.one(-1, 99, 2 ** 40, len(self.store.kinds)) if self.rare(25) or not self.store.kinds else self.draw.randrange(len(self.store.kinds))

    def last(self, channel):
        held = self.store.points[channel] if self.store.is_channel(channel) else []
        return held[-1][0] if held else 0

    def channel_value(self, channel):
        if self.rare(6):
            return "n"
        if self.rare(20) or not self.store.is_channel(channel):
            return self.one("L1+2", "S+a", self.value(self.draw.choice("bilfdsx")))
        return self.value("bilfdsx"[KINDS.index(self.store.kinds[channel])])

    def index(self, near):
        if self.rare(40):
            return self.one(FAR, -FAR, FAR + 1, -FAR - 1, 2 ** 63 - 1, -2 ** 63)
        return near + self.one(-1, 0, 1) if self.rare(12) else near

    def append(self):
        last, items = {}, []
        for _ in range(self.one(0, 1, 2, 3, 4, 6)):
            channel = self.channel()
            near = last.get(channel, self.last(channel)) + self.one(1, 1, 2, 7)
            last[channel] = near
            items.append([str(channel), str(self.index(near)), self.channel_value(channel)])
        return items

    def replace(self):
        count = len(self.store.kinds)
        channels = [self.channel()] if count < 2 or self.rare(3) else self.draw.sample(range(count), self.one(1, 1, 2, 2, 3) if count > 2 else 2)
        if self.rare(8):
            channels = self.draw.choice([[], channels + channels[:1], channels + [self.channel()]])
        end = max([self.last(channel) for channel in channels] or [0]) + self.one(-9, -3, -3, 0, 4)
        start = end - self.one(0, 1, 5, 12)
        if self.rare(14):
            start, end = self.draw.choice([(end + 1, start), (-FAR - 1, end), (start, FAR + 1), (-FAR, FAR)])
        items, places = [], {}
        for _ in range(self.one(0, 0, 1, 2, 3)):
            channel = self.draw.choice(channels) if channels and not self.rare(20) else self.channel()
            near = places.get(channel, start - 1) + self.one(1, 1, 2, 3)
            places[channel] = near
            near = near if self.rare(15) else min(near, end)
            items.append([str(channel), str(self.index(near)), self.channel_value(channel)])
        return "replace %s %d %d" % (self.listed(channels), start, end), items

    def truncate(self):
        items = []
        for name in self.names():
            channel = self.channel()
            end = self.index(self.last(channel) + self.one(-8, -2, -1, 0, 3))
            items.append([name, str(channel), str(end)])
        return items

    def range(self):
        items = []
        for _ in range(self.one(0, 1, 1, 2, 3)):
            channel = self.channel()
            start, end = self.last(channel) - self.one(0, 3, 9), self.last(channel) + self.one(-2, 0, 3)
            if self.rare(15):
                start, end = self.one((FAR + 5, FAR + 6), (end + 1, start), (-2 ** 63, 2 ** 63 - 1))
            items.append([str(channel), str(start), str(end)])
        return items

    def meta(self):
        items = []
        for name in self.names():
            number = self.draw.randrange(len(self.store.kinds) + 1)
            uri = ["w" if number % 2 else "-", "Channel", str(number)]
            items.append([name] + (self.object_uri() if self.rare(6) else uri[:1] + ["Well"] + uri[2:] if self.rare(9) else uri))
        return items

    def call(self):
        """A call's words, and its items."""
        kind = self.draw.randrange(120)
        if kind >= 100:
            return "commit", self.staged()
        if kind < 3:
            return "enter", []
        if kind < 9:
            return "spaces" + self.one("", " %d" % (self.at - self.one(0, 3, 9)), " -1", " 0"), []
        if kind < 17:
            return "put_spaces", [[name, self.path(), self.custom()] for name in self.names()]
        if kind < 21:
            return "drop_spaces", [[name, self.path()] for name in self.names()[:2]]
        if kind < 37:
            return "look", [self.want() for _ in range(self.one(0, 1, 2, 3))]
        if kind < 60:
            return "put", [self.operation(name) for name in self.names()]
        if kind < 74:
            return "append", self.append()
        if kind < 82:
            return self.replace()
        if kind < 87:
            return "truncate", [] if self.rare(12) else self.truncate()
        if kind < 95:
            return "range", self.range()
        return "meta", self.meta()

    def line(self):
        sessions = [place for place in range(len(self.store.journal)) if self.store.is_session(place)]
        by = self.draw.randrange(len(self.store.journal) + 2) if self.rare(40) else self.draw.choice(sessions)
        words, items = self.call()
        moment = self.moment()
        return "%d %d %s" % (by, moment, words) + (":" + ";".join(" ".join(item) for item in items) if items else "")


def drawn():
    draw, lines = random.Random(47), []
    for calls, words in STORES:
        lines.append("store " + words)
        store = Store(*words.split(" "))
        draws = Draw(draw, store)
        for _ in range(calls):
            lines.append(draws.line())
            store.call(lines[-1])
        lines.append("journal")
    return lines


def main():
    lines = ["limits"] + [line for part in (LIMITS, ORDER, COMMITS) for line in part.splitlines()] + drawn()
    if sys.argv[1:] == ["cases"]:
        print("\n".join(lines))
    elif sys.argv[1:] == ["answer"]:
        player = Player()
        for line in lines:
            print("\n".join(player.answer(line)))
    else:
        sys.exit("cases or answer")


main()
