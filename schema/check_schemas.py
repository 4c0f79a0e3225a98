#!/usr/bin/env python3
"""Compares docs/schemas with the other places that have the schema.

    schema/check_schemas.py

1. With the reader from outside, outside/wire.py, whose tables are written by hand: every schema, number, name and sender.
2. With the product: the table of etp_schema with the names of capture_text, read as text.
3. With python3-avro (`apt-get install python3-avro`): each message of docs/samples, clients' and servers', and each sample message
   of crates/check_frames is read by its schema to the values that the reader from outside reads, and the program that
   docs/WIRE.md prints reads the samples to the same values. Without the package this part is skipped, and the check says so.

It prints each difference, and ends with 1 if there is one.

    schema/check_schemas.py samples     the third part alone
"""
import io
import json
import pathlib
import re
import struct
import subprocess
import sys

TOP = pathlib.Path(__file__).resolve().parent.parent
SCHEMAS = TOP / "docs/schemas"
SYSTEM_PYTHON = "/usr/bin/python3"
sys.dont_write_bytecode = True
sys.path.insert(0, str(TOP / "outside"))
import wire

SENDERS = {"C": ("client", "both"), "S": ("server", "both")}
# Captures with a message for each refusal and each place where one may end: read as far as their frames go.
FRAMES = [TOP / "crates/check_frames/data" / name for name in ("messages.cap", "joins.cap", "parts.cap")]
SAMPLES = sorted((TOP / "docs/samples").glob("*.cap"))


class Differences:
    def __init__(self):
        self.found = 0

    def compare(self, what, ours, theirs):
        if ours != theirs:
            self.found += 1
            print(f"{what}: {str(ours)[:300]} is not {str(theirs)[:300]}")

    def compare_sets(self, what, ours, theirs):
        """The same of sets, of which what one of them has alone is said."""
        self.compare(what + " that the others have not", set(ours) - set(theirs), set())
        self.compare(what + " that are missing", set(theirs) - set(ours), set())


def schema_of(name):
    text = json.loads((SCHEMAS / name).read_text())
    text.pop("doc", None)
    return text


def messages():
    """The file of each message by protocol, number and the letter of its sender."""
    files = {}
    for row in json.loads((SCHEMAS / "messages.json").read_text()):
        for letter, senders in SENDERS.items():
            if row["sender"] in senders:
                files[row["protocol"], row["number"], letter] = row["name"], row["file"]
    return files


# --- the reader from outside -------------------------------------------------------------------------------------------


def compare_outside(differences):
    ours = messages()
    differences.compare_sets("messages", ours, wire.BODIES)
    for key, body in wire.BODIES.items():
        name, file = ours.get(key, (None, None))
        differences.compare(f"the name of {key}", name, body.name)
        if file and (key[1] < 1000 or key[0] == 0):
            differences.compare(file, schema_of(file), wire.avro_schema(body, set()))
    differences.compare("the header", schema_of("MessageHeader.avsc"), wire.avro_schema(wire.HEADER, set()))
    listed = {file for _, file in ours.values()} | {"MessageHeader.avsc"}
    differences.compare_sets("files", {path.name for path in SCHEMAS.glob("*.avsc")}, listed)
    return len(listed)


# --- the product's table -----------------------------------------------------------------------------------------------

LEAVES = {"Null": "null", "Boolean": "boolean", "Int": "int", "Long": "long", "Float": "float", "Double": "double",
          "Bytes": "bytes", "Text": "string"}


def read_source(name):
    return (TOP / "crates" / name).read_text()


def plain_of(schema, known):
    """A schema without the names of its types: nested tuples."""
    match schema:
        case str() if schema in known:
            return known[schema]
        case str():
            return schema
        case list():
            return ("union", *(plain_of(each, known) for each in schema))
        case {"type": "array"}:
            return ("array", plain_of(schema["items"], known))
        case {"type": "map"}:
            return ("map", plain_of(schema["values"], known))
        case {"type": "fixed"}:
            known[schema["name"]] = ("fixed", schema["size"])
        case {"type": "enum"}:
            known[schema["name"]] = ("enum", len(schema["symbols"]))
        case {"type": "record"}:
            fields = [(each["name"], plain_of(each["type"], known)) for each in schema["fields"]]
            known[schema["name"]] = ("record", *fields)
    return known[schema["name"]]


def product_table():
    """The type at each place of the product's table, with the names of fields, and the name of the message there."""
    places = {name: int(place) for name, place in re.findall(r"pub const (\w+): u32 = (\d+);", read_source("etp_schema/src/places.rt"))}
    table = read_source("etp_schema/src/table.rt").split("nodes: &[", 1)[1]
    nodes = re.findall(r"Node::(\w+)(?:\((?:&\[)?([^\])]*)\]?\))?,", table)
    names = read_source("capture_text/src/names.rt").split("static NAMES", 1)[1].split("];", 1)[0]
    named = re.findall(r'(Nothing|Record\(|Message\(\s*"(\w+)",)\s*(?:&\[([^\]]*)\])?', names)
    shapes = []
    for (kind, inner), (_, _, fields) in zip(nodes, named, strict=True):
        parts = [word.strip() for word in inner.split(",") if word.strip()]
        children = [shapes[places[each]] for each in parts if each in places]
        match kind:
            case "Fixed" | "Enum":
                shapes.append((kind.lower(), int(parts[0])))
            case "Fields":
                shapes.append(("record", *zip(re.findall(r'"(\w+)"', fields), children, strict=True)))
            case "Array" | "Map" | "Union":
                shapes.append((kind.lower(), *children))
            case _:
                shapes.append(LEAVES[kind])
    return places, shapes, [name for _, name, _ in named]


def product_messages():
    """The constant of each message's place, by protocol, number and sender."""
    source = read_source("etp_schema/src/body.rt")
    numbers = dict(re.findall(r"pub const (\w+): i32 = (\d+);", read_source("etp_schema/src/protocols.rt")))
    found = {}
    for protocol, arms in re.findall(r"^fn (\w+)_body\(.*?\{\n(.*?)^\}", source, re.M | re.S):
        for number, side, place in re.findall(r"\(([\w:]+), (\w+(?:::\w+)?)\) => Some\((\w+)\)", arms):
            number = int(numbers.get(number.removeprefix("protocols::"), number) if not number.isdigit() else number)
            for letter in {"Side::Client": "C", "Side::Server": "S", "_": "CS"}[side]:
                found[int(numbers[protocol.upper()]), number, letter] = place
    return found


def compare_product(differences):
    places, shapes, names = product_table()
    ours, theirs = messages(), product_messages()
    differences.compare_sets("messages beside the product's", ours, theirs)
    for key, constant in theirs.items():
        name, file = ours.get(key, (None, None))
        differences.compare(f"the product's name of {key}", name, names[places[constant]])
        if file and (key[1] < 1000 or key[0] == 0):
            differences.compare(f"the product's {name}", plain_of(schema_of(file), {}), shapes[places[constant]])
    differences.compare("the product's header", plain_of(schema_of("MessageHeader.avsc"), {}), shapes[places["MESSAGE_HEADER"]])
    return len(shapes)


# --- python3-avro ------------------------------------------------------------------------------------------------------


def sample_messages(paths):
    """The sender's letter and the bytes of each message in these captures. Only the captures of FRAMES may end in the middle of a
    frame."""
    for path in paths:
        frames = []
        try:
            for frame in wire.read_frames(path.read_bytes()):
                frames.append(frame)
        except wire.Unreadable:
            if path not in FRAMES:
                raise
        for frame in frames:
            if frame.kind in wire.SENDERS:
                yield wire.SENDERS[frame.kind], frame.data


def outside_value(node, value):
    """A value of the reader from outside as python3-avro has it: floats as numbers, symbols by name, a union's value alone."""
    match node:
        case wire.Leaf("float"):
            return struct.unpack("<f", struct.pack("<I", value))[0]
        case wire.Leaf("double"):
            return struct.unpack("<d", struct.pack("<Q", value))[0]
        case wire.Enum(_, symbols):
            return symbols[value]
        case wire.Array(item):
            return [outside_value(item, each) for each in value]
        case wire.Map(item):
            return {name: outside_value(item, each) for name, each in value.items()}
        case wire.Union(branches):
            return outside_value(branches[value[0]], value[1])
        case wire.Record(_, fields):
            return {name: outside_value(part, value[name]) for name, part in fields}
    return value


def bits(value):
    """A value with its floats as their bits, so that a not-a-number is equal to itself."""
    match value:
        case float():
            return struct.pack("<d", value)
        case list():
            return [bits(each) for each in value]
        case dict():
            return {name: bits(each) for name, each in value.items()}
    return value


def compare_samples(differences):
    """With python3-avro, which this Python has. Returns how many messages were compared."""
    import avro.io
    import avro.schema
    files, parsed, seen, count = messages(), {}, set(), 0

    def parse(file):
        if file not in parsed:
            parsed[file] = avro.schema.parse((SCHEMAS / file).read_text())
        return parsed[file]

    for sender, data in sample_messages([*SAMPLES, *FRAMES]):
        try:
            header, body, value = wire.read_message(data, sender)
        except wire.Fault:
            continue
        key = header["protocol"], header["messageType"], sender
        if key not in files:
            differences.compare(f"the schema of {body.name}", None, key)
            continue
        source = io.BytesIO(data)
        decoder = avro.io.BinaryDecoder(source)
        read_header = avro.io.DatumReader(parse("MessageHeader.avsc")).read(decoder)
        read_body = avro.io.DatumReader(parse(files[key][1])).read(decoder)
        differences.compare(f"the header of a {body.name}", read_header, header)
        differences.compare(f"a {body.name}", bits(read_body), bits(outside_value(body, value)))
        differences.compare(f"the bytes after a {body.name}", source.read(), b"")
        seen.add(key)
        count += 1
    missing = {name for (_, _, letter), (name, _) in files.items() if letter in "CS"} - {files[key][0] for key in seen}
    differences.compare("messages without a sample", missing, set())
    differences.compare("whether docs/samples has captures", bool(SAMPLES), True)
    return count


def printed_program():
    """The program that docs/WIRE.md prints for another maker."""
    return re.search(r"```python\n(.*?)```", (TOP / "docs/WIRE.md").read_text(), re.S)[1]


def compare_program(differences):
    """Runs the program of docs/WIRE.md over each sample all of whose messages have a body, as its reader would. Returns how many."""
    count = 0
    for path in SAMPLES:
        wanted = []
        try:
            for sender, data in sample_messages([path]):
                header, body, value = wire.read_message(data, sender)
                wanted.append(f"{(header, outside_value(body, value))}")
        except wire.Fault:
            # the sample of refusals, in which clients send what no schema has
            continue
        done = subprocess.run([sys.executable, "-c", printed_program(), path], cwd=TOP, stdout=subprocess.PIPE, text=True)
        differences.compare(f"the status of WIRE.md's program on {path.name}", done.returncode, 0)
        differences.compare(f"what WIRE.md's program prints of {path.name}", done.stdout.splitlines(), wanted)
        count += 1
    return count


def check_samples():
    """Compares the samples, with the system's Python if this one has no avro. Returns the status, or None if neither has it."""
    try:
        import avro.io  # noqa: F401
    except ImportError:
        if sys.executable == SYSTEM_PYTHON or not pathlib.Path(SYSTEM_PYTHON).exists():
            return None
        done = subprocess.run([SYSTEM_PYTHON, __file__, "samples"], stdout=subprocess.PIPE, text=True)
        print(done.stdout, end="")
        return done.returncode
    differences = Differences()
    count = compare_samples(differences)
    print(f"python3-avro read {count} messages of {len(SAMPLES) + len(FRAMES)} captures: {differences.found} differences")
    before = differences.found
    count = compare_program(differences)
    print(f"the program of docs/WIRE.md read {count} samples: {differences.found - before} differences")
    return 1 if differences.found else 0


def main(words):
    if words == ["samples"]:
        done = check_samples()
        if done is None:
            print("skipped: python3-avro is not installed, so it did not read the samples")
        return done or 0
    differences = Differences()
    print(f"{compare_outside(differences)} schemas and outside/wire.py: {differences.found} differences")
    before = differences.found
    print(f"{compare_product(differences)} places of the product's table: {differences.found - before} differences")
    return main(["samples"]) or (1 if differences.found else 0)


if __name__ == "__main__":
    sys.exit(main(sys.argv[1:]))
