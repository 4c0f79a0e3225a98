#!/usr/bin/env python3
"""Writes docs/samples, captures of sessions with their answers, and docs/WIRE.md with the bytes of their messages.

    schema/samples.py                    writes them
    schema/samples.py --check            writes nothing; ends with 1 if one would change
    schema/samples.py --check ETPTOOL    also plays each sample by this etptool, whose answers and shown lines must be the same

The answers are those of the server from outside, outside/transactions.py, which shares nothing with the product. The prose of
docs/WIRE.md is schema/by_hand/WIRE.md, in which this script replaces each line {{word ..}}.
"""
import pathlib
import re
import subprocess
import sys

TOP = pathlib.Path(__file__).resolve().parent.parent
FOLDER = TOP / "docs/samples"
sys.dont_write_bytecode = True
sys.path[:0] = [str(TOP / "schema"), str(TOP / "outside")]
import sample_sessions
import short_sessions
import wire

SIDES = {1: "client", 17: "server"}
WIDTH = 32


class Sample:
    """A capture with its answers, and the configuration that it is played with."""

    def __init__(self, name, capture, answers, config_name, config):
        self.name, self.capture, self.answers, self.config_name, self.config = name, capture, answers, config_name, config

    @property
    def exchanges(self):
        """Each frame of a client with the frames that answer it: those of its tag and moment."""
        answers = list(wire.read_frames(self.answers))
        for frame in wire.read_frames(self.capture):
            yield frame, [each for each in answers if (each.tag, each.moment) == (frame.tag, frame.moment)]


def samples():
    """All samples, by their names; the refusals too, with what earns each."""
    found = {}
    refusals = sample_sessions.refusals()
    for made in [*(each() for each in sample_sessions.SAMPLES), refusals.sample]:
        config = made.name if made.journal else "server"
        found[made.name] = Sample(made.name, made.capture, made.answers, config, made.config)
    for name, (config_name, config), capture, answers in short_sessions.cases():
        found[name] = Sample(name, capture, answers, config_name, config)
    shipped = TOP / "crates/etptool/data"
    found["put_and_list"] = Sample(
        "put_and_list", *((shipped / name).read_bytes() for name in ("session.cap", "answers.cap")), "two_channels",
        (shipped / "server.toml").read_text())
    return found, refusals.found


# ---- What docs/WIRE.md has of them


def hexadecimal(data, indent=""):
    lines = (data[at:at + WIDTH].hex(" ") for at in range(0, len(data), WIDTH))
    return "".join(f"{indent}{line}\n" for line in lines)


def shown(frame):
    """A frame's shown line without the columns of the capture."""
    if frame.kind == 19:
        return f"ended {frame.data.hex()}"
    try:
        return wire.show_message(frame.data, wire.SENDERS[frame.kind])
    except wire.Fault as fault:
        return f"refused {fault}"


def short(text, limit=300):
    return text if len(text) <= limit else f"{text[:limit]} .."


def message_block(frame, limit=None, with_bytes=True):
    """A message's side, its shown line and its bytes."""
    who = SIDES.get(frame.kind, "server")
    text = shown(frame) if limit is None else short(shown(frame), limit)
    return f"{who}: {text}\n" + (hexadecimal(frame.data, "  ") if with_bytes and frame.kind != 19 else "")


def block(lines):
    return "```\n" + "".join(lines) + "```"


def messages_of(sample):
    """The frames of both sides, in order; each is of a kind that has a message, or a session's end."""
    for frame, answers in sample.exchanges:
        yield frame
        yield from answers


def say_messages(found, earned, name, first, last):
    """The messages of a sample with their bytes, each with its number."""
    frames = [each for each in messages_of(found[name]) if each.kind in SIDES][int(first) - 1:int(last)]
    texts = []
    for at, frame in enumerate(frames, int(first)):
        name = shown(frame).split()[0]
        texts.append(f"**{at}. The {SIDES[frame.kind]} sends {name}**, {len(frame.data)} bytes\n\n{block([message_block(frame)])}")
    return "\n\n".join(texts)


def say_lines(found, earned, name, limit="160"):
    """The lines of a sample but for the openings, a session by its tag; long ones are cut."""
    lines = []
    for frame in messages_of(found[name]):
        if frame.kind in SIDES and shown(frame).startswith(("RequestSession", "OpenSession")):
            continue
        who = f"{SIDES.get(frame.kind, 'server' if frame.kind == 19 else 'client')} {frame.tag}"
        text = short(shown(frame), int(limit)) if frame.kind in (1, 17, 19) else wire.KINDS[frame.kind]
        size = f" ({len(frame.data):,} bytes)" if frame.kind in SIDES and len(shown(frame)) > int(limit) else ""
        lines.append(f"{who}: {text}{size}\n")
    return block(lines)


class Spans(wire.Reader):
    """Reads a value, and keeps of each leaf the bytes and what it is."""

    def __init__(self, data, at=0):
        super().__init__(data, at)
        self.rows, self.path = [], []

    def number(self):
        start = self.at
        number = super().number()
        self.note(start, f"= {number}")
        return number

    def note(self, start, text):
        self.rows.append([start, self.at, ".".join(self.path), text])

    def blocks(self, read_item):
        def counted():
            start = len(self.rows)
            read_item()
            return start
        super().blocks(counted)

    def value(self, node):
        start = self.at
        if not isinstance(node, wire.Record):
            value = super().value(node)
            if isinstance(node, (wire.Leaf, wire.Fixed, wire.Enum)) and self.at > start:
                self.rows = [row for row in self.rows if row[0] < start]
                self.note(start, wire.show_value(node, value))
            return value
        return {name: self.field(name, part) for name, part in node.fields}

    def field(self, name, part):
        self.path.append(name)
        try:
            return self.value(part)
        finally:
            self.path.pop()

    def entry(self, item, into):
        start = self.at
        name = self.text()
        self.rows = [row for row in self.rows if row[0] < start]
        self.note(start, f"the key {wire.quoted(name)}")
        self.path.append(f'"{name}"')
        into[name] = self.value(item)
        self.path.pop()


def say_bytes(found, earned, name, number):
    """One message, byte by byte."""
    frame = [each for each in messages_of(found[name]) if each.kind in SIDES][int(number) - 1]
    header = Spans(frame.data)
    head = header.value(wire.HEADER)
    body = Spans(frame.data, header.at)
    body.value(wire.BODIES[head["protocol"], head["messageType"], wire.SENDERS[frame.kind]])
    lines = ["| bytes | field | value |\n", "|---|---|---|\n"]
    for rows, what in (header.rows, "header"), (body.rows, "body"):
        for start, end, path, text in rows:
            if text.startswith("= "):
                text = {"= 0": "0: no more items", "= 1": "1 item"}.get(text, f"{text[2:]} items")
            lines.append(f"| `{frame.data[start:end].hex(' ')}` | {what}: {path} | {text} |\n")
    return "".join(lines).rstrip()


def say_refusals(found, earned):
    """Each code with a message that is refused with it, and a table of all of them."""
    exchanges, texts = list(found["refusals"].exchanges), []
    for code in sorted({code for code, _, _ in earned}):
        rows = [(why, *exchanges[at]) for own, why, at in earned if own == code]
        why, frame, answers = min(rows, key=lambda row: len(row[1].data))
        lines = [message_block(frame), *(message_block(each) for each in answers)]
        text = f"### {code}: `{sample_sessions.row_samples.TEXTS[code]}`\n\nHere: {why}.\n\n{block(lines)}\n\n"
        text += "| sent | refused | session, id | why |\n|---|---|---|---|\n"
        for why, frame, answers in rows:
            text += f"| {name_of(frame)} | {whole_or_key(answers)} | {frame.tag}, {id_of(frame)} | {why} |\n"
        texts.append(text.rstrip())
    return "\n\n".join(texts)


def name_of(frame):
    try:
        return wire.read_message(frame.data, "C")[1].name
    except wire.Fault as fault:
        return f"`{fault}`"


def id_of(frame):
    try:
        return wire.Reader(frame.data).value(wire.HEADER)["messageId"]
    except wire.Refusal:
        return "-"


def whole_or_key(answers):
    bodies = [wire.read_message(each.data, "S")[2] for each in answers if each.kind == 17]
    return "the message" if any(body.get("error", (0, None))[1] for body in bodies) else "the key"


def say_samples(found, earned):
    lines = ["| capture | configuration | messages | shows |\n", "|---|---|---|---|\n"]
    for name, sample in found.items():
        count = sum(1 for each in messages_of(sample) if each.kind in SIDES)
        lines.append(f"| [{name}.cap](samples/{name}.cap) | {sample.config_name}.toml | {count} | {SHOWS[name]} |\n")
    return "".join(lines).rstrip()


SHOWS = {
    "first_session": "the first messages", "notices": "a subscription and its notices", "parts": "an answer in parts",
    "chunks": "an object's data in chunks, both ways", "transactions_of_two": "two transactions of which the later one conflicts",
    "arrays": "an array that is put, patched and read", "full_journal": "a journal that is full: 12, and a session that ends at once",
    "refusals": "refusals", "journal_of_three": "a full journal", "loads_in_order": "two channels that are loaded",
    "one_put": "an object", "regions_of_an_array": "regions of an array", "replaced_ranges": "replacements",
    "three_commits": "three transactions", "put_and_list": "a dataspace that is put and listed",
}
WORDS = {"messages": say_messages, "lines": say_lines, "bytes": say_bytes, "refusals": say_refusals, "samples": say_samples}


def wire_document(found, earned):
    text = (TOP / "schema/by_hand/WIRE.md").read_text()
    return re.sub(r"^\{\{(\w+)(.*)\}\}$", lambda part: WORDS[part[1]](found, earned, *part[2].split()), text, flags=re.M)


# ---- Writing and checking


def files():
    found, earned = samples()
    yield TOP / "docs/WIRE.md", wire_document(found, earned).encode()
    for sample in found.values():
        if any(other.config != sample.config for other in found.values() if other.config_name == sample.config_name):
            raise ValueError(f"two configurations {sample.config_name}.toml")
        yield FOLDER / f"{sample.name}.cap", sample.capture
        yield FOLDER / f"{sample.name}.answers.cap", sample.answers
        yield FOLDER / f"{sample.config_name}.toml", sample.config.encode()


def write():
    FOLDER.mkdir(parents=True, exist_ok=True)
    for path, content in files():
        if not path.exists() or path.read_bytes() != content:
            path.write_bytes(content)
            print("written:", path.relative_to(TOP))


def differing():
    """The files that differ from what is written, and those that nothing writes."""
    made = dict(files())
    for path, content in made.items():
        if not path.exists() or path.read_bytes() != content:
            yield f"{path.relative_to(TOP)} differs from what is written"
    for path in FOLDER.glob("*"):
        if path not in made:
            yield f"{path.relative_to(TOP)} is not a file that is written"


def played(tool):
    """The samples to which an etptool gives other answers."""
    found, _ = samples()
    for sample in found.values():
        done = subprocess.run([tool, "replay", FOLDER / f"{sample.config_name}.toml"], input=sample.capture, capture_output=True)
        if done.returncode or done.stdout != sample.answers:
            yield f"{sample.name}: etptool replay gives other answers (status {done.returncode}) {done.stderr.decode()[:200]}"
        for capture in sample.capture, sample.answers:
            lines = "".join(wire.show_line(each) for each in wire.read_frames(capture))
            done = subprocess.run([tool, "show"], input=capture, capture_output=True)
            if done.returncode or done.stdout.decode() != lines:
                yield f"{sample.name}: etptool show writes other lines (status {done.returncode})"
    print(f"{len(found)} samples were played by {tool}")


def main(words):
    if not words:
        write()
        return 0
    if words[0] != "--check" or len(words) > 2:
        print(__doc__.strip(), file=sys.stderr)
        return 2
    lines = [*differing(), *(played(words[1]) if words[1:] else ())]
    print("\n".join(lines) if lines else "docs/samples and docs/WIRE.md are as they are written")
    return 1 if lines else 0


if __name__ == "__main__":
    sys.exit(main(sys.argv[1:]))
