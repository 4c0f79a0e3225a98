"""The codec compared with the reader from outside: every message, other spellings, every prefix, and broken messages."""
import struct
import unittest
import unittest.mock

import support  # noqa: F401
import hostile_messages
import message_samples
import wire
from colmjurr import codec
from colmjurr.errors import WireError


def as_outside(text, value):
    """A value of the package's as the reader from outside has it."""
    if text.startswith("["):
        return [as_outside(text[1:-1], each) for each in value]
    if text.startswith("{"):
        return {name: as_outside(text[1:-1], each) for name, each in value.items()}
    if text.endswith("?"):
        return (0, None) if value is None else (1, as_outside(text[:-1], value))
    if "|" in text:
        return value[0], as_outside(text.split("|")[value[0]], value[1])
    if text == "float":
        return value.bits if isinstance(value, codec.NaN32) else struct.unpack("<I", struct.pack("<f", value))[0]
    if text == "double":
        return struct.unpack("<Q", struct.pack("<d", value))[0]
    if text in codec.schema.RECORDS:
        return {name: as_outside(part, value[name]) for name, part in codec.schema.RECORDS[text]}
    return value


def outside_body(body, value):
    return {name: as_outside(part, value[name]) for name, part in body.fields}


def fault_of(error):
    """The words of a shown fault."""
    if error.cause in ("extension", "compressed"):
        return error.cause
    if error.cause in ("protocol", "message type"):
        return error.part
    return f"rest {error.offset}" if error.cause == "rest" else f"{error.part} {error.cause} {error.offset}"


def read_here(data, sender):
    """The header and the body in the outside reader's form, or the fault's words."""
    try:
        header, body, value = codec.read_message(data, sender)
    except WireError as error:
        return fault_of(error)
    return tuple(header), body.name, outside_body(body, value)


def read_there(data, sender):
    try:
        header, body, value = wire.read_message(data, sender)
    except wire.Fault as fault:
        return str(fault)
    return tuple(header.values()), body.name, value


SAMPLES = [(wire.SENDERS[kind], data, same) for kind, data, same in message_samples.samples() if kind in wire.SENDERS]
# the messages of docs/samples too, each once; of the refusals some can't be read
SHIPPED = sorted({
    (wire.SENDERS[frame.kind], frame.data) for path in sorted((support.ROOT / "docs" / "samples").glob("*.cap"))
    for frame in wire.read_frames(path.read_bytes()) if frame.kind in wire.SENDERS})


class Codec(unittest.TestCase):
    def test_every_message_is_read_as_outside_and_written_back(self):
        names = set()
        for sender, data, same in SAMPLES:
            read = read_here(data, sender)
            self.assertEqual(read, read_there(data, sender))
            names.add(read[1])
            header, _, value = codec.read_message(data, sender)
            self.assertEqual(codec.write_message(header, value) == data, same, read[1])
        self.assertEqual(names, {body.name for body in wire.BODIES.values()})

    def test_the_shipped_samples_are_read_as_outside(self):
        names = set()
        for sender, data in SHIPPED:
            read = read_here(data, sender)
            self.assertEqual(read, read_there(data, sender))
            if isinstance(read, str):
                continue
            names.add(read[1])
            header, body, value = wire.read_message(data, sender)
            loose = wire.write_message(header, body, value, loose=True)
            self.assertEqual(read_here(loose, sender), read_there(loose, sender))
            for end in range(min(len(data), 400)):
                self.assertEqual(read_here(data[:end], sender), read_there(data[:end], sender), (data, end))
        self.assertGreater(len(names), 40)

    def test_every_message_in_other_spellings(self):
        for sender, data, _ in SAMPLES:
            header, body, value = wire.read_message(data, sender)
            loose = wire.write_message(header, body, value, loose=True)
            self.assertEqual(read_here(loose, sender), read_there(data, sender))

    def test_every_prefix_is_refused_as_outside(self):
        for sender, data, _ in SAMPLES:
            for end in range(len(data)):
                self.assertEqual(read_here(data[:end], sender), read_there(data[:end], sender), (data, end))

    def test_each_cause_of_refusal(self):
        words = set()
        for kind, data in message_samples.REFUSED:
            read = read_here(data, wire.SENDERS[kind])
            self.assertEqual(read, read_there(data, wire.SENDERS[kind]))
            words.add(read.split()[1] if read.split()[0] in ("header", "body") else read.split()[0])
        wanted = {"short", "number", "range", "boolean", "branch", "utf8", "length", "blocksize", "doublekey"}
        self.assertLessEqual(wanted | {"rest", "protocol", "message", "extension", "compressed"}, words)

    def test_broken_messages(self):
        samples = [wire.Frame(0, kind, 0, 0, data) for kind, data, _ in message_samples.samples() if kind in wire.SENDERS]
        refused = 0
        for frame in hostile_messages.make_frames(7, 3, samples):
            sender = wire.SENDERS[frame.kind]
            read = read_here(frame.data, sender)
            self.assertEqual(read, read_there(frame.data, sender), frame.data)
            refused += isinstance(read, str)
        self.assertGreater(refused, 3000)
        self.assertLess(refused, 6000)

    def test_too_many_values(self):
        self.assertEqual(codec.NODE_LIMIT, 8_388_608)
        header = codec.write_header(codec.Header(18, 1, 0, 2, 2))
        most = 50_000
        # the body, its boolean, its text and its list count as well
        count = most - 4
        texts = bytearray(header + b"\0\0")
        codec.put_number(texts, count)
        with unittest.mock.patch("colmjurr.codec.NODE_LIMIT", most):
            self.assertEqual(len(codec.read_message(bytes(texts) + bytes(count) + b"\0", "C")[2]["dataspaceUris"]), count)
            texts = bytearray(header + b"\0\0")
            codec.put_number(texts, count + 1)
            with self.assertRaises(WireError) as caught:
                codec.read_message(bytes(texts) + bytes(count + 1) + b"\0", "C")
        self.assertEqual((caught.exception.cause, caught.exception.offset), ("limit", len(texts) + count))

    def test_a_length_that_is_not_there_takes_no_memory(self):
        header = codec.write_header(codec.Header(0, 5, 0, 2, 2))
        huge = bytearray(header)
        codec.put_number(huge, 1 << 60)
        with self.assertRaises(WireError) as caught:
            codec.read_message(bytes(huge))
        self.assertEqual((caught.exception.cause, caught.exception.offset), ("short", len(header)))


class LongArrays(unittest.TestCase):
    """Long arrays of numbers are read and written at once where numpy is there: to the same bytes and values."""

    def compare(self, item, values, loose=False):
        node = wire.Array(wire.TYPES[item])
        outside = [as_outside(item, each) for each in values]
        data = wire.Writer(loose).value(node, outside)
        cursor = codec.Cursor(data + b"\x55")
        read = codec.coder(f"[{item}]")[0](cursor)
        self.assertEqual([as_outside(item, each) for each in read], outside)
        self.assertEqual((cursor.at, cursor.left), (len(data), codec.NODE_LIMIT - 1 - len(values)))
        self.assertIsInstance(read[0], {"boolean": bool, "int": int, "long": int}.get(item, float))
        if not loose:
            self.assertEqual(codec.encoded(f"[{item}]", values), data)

    def test_values(self):
        steps = range(-300, 300)
        for loose in (False, True):
            self.compare("boolean", [step % 3 == 0 for step in steps], loose)
            self.compare("int", [step * 7_158_278 for step in steps], loose)
            self.compare("long", [step * 30_744_573_456_182_586 for step in steps] + [-(1 << 63), (1 << 63) - 1], loose)
            self.compare("long", [step for step in steps], loose)
            self.compare("float", [step / 4 for step in steps], loose)
            self.compare("double", [step / 3 for step in steps], loose)
        self.compare("float", [codec.NaN32(0x7F800001 + place) for place in range(100)])

    def test_what_is_out_of_form(self):
        for item, good, bad, cause in (("boolean", b"\1", b"\2", "boolean"), ("int", b"\2", b"\x80\x80\x80\x80\x20", "range")):
            data = b"\x90\x03" + good * 150 + bad + good * 49 + b"\0"
            with self.assertRaises(WireError) as caught:
                codec.coder(f"[{item}]")[0](codec.Cursor(data))
            self.assertEqual((caught.exception.cause, caught.exception.offset), (cause, 152))

    def test_arrays_of_numpy(self):
        try:
            import numpy
        except ImportError:
            self.skipTest("numpy is not there")
        for item, dtype in (("boolean", "bool"), ("int", "int32"), ("long", "int64"), ("float", "float32"), ("double", "float64")):
            values = (numpy.arange(-500, 500) * (1 if item != "long" else 1 << 40)).astype(dtype)
            self.assertEqual(codec.encoded(f"[{item}]", values), codec.encoded(f"[{item}]", values.tolist()))


class Refusals(unittest.TestCase):
    """Values that can't be spelled are refused before anything is sent."""

    def test_values(self):
        for text, value in (
                ("int", 1 << 31), ("int", True), ("int", 1.5), ("long", 1 << 63), ("long", "1"), ("boolean", 1), ("string", b"x"), ("string", "\ud800"),
                ("bytes", "x"), ("Uuid", b"x"), ("double", "x"), ("float", 1e39), ("ActiveStatusKind", 2), ("IndexValue", {"item": (4, 0)})):
            with self.subTest(text=text, value=value), self.assertRaises(ValueError):
                codec.encoded(text, value)


if __name__ == "__main__":
    unittest.main()
