#!/usr/bin/env python3
"""Tests of schema/write, each in a copy of the repository.

    schema/test_write.py

- What is said to be written is written: each such paragraph and file is spoiled, and after schema/write all files are as they were.
- A new message comes into each file that goes over messages, and a second run of schema/write changes nothing.
- What is left of a removed message is reported.
"""
import importlib.machinery
import importlib.util
import pathlib
import shutil
import sys
import tempfile
import unittest

sys.dont_write_bytecode = True
HERE = pathlib.Path(__file__).resolve().parent
sys.path.insert(0, str(HERE))
import schema_file
from text_files import TextFile, parts_of

loader = importlib.machinery.SourceFileLoader("schema_write", str(HERE / "write"))
spec = importlib.util.spec_from_loader("schema_write", loader)
schema_write = importlib.util.module_from_spec(spec)
loader.exec_module(schema_write)

NEW = """
message ChannelDataLoad 100 TryChannels client
    channels {ChannelMetadataRecord}, at long, data as payload bytes

message ChannelDataLoad 101 TryChannelsResponse server grows ids joined
    ids {long}, reason string
"""


def spoil(path, top, written):
    """Adds a word to each paragraph that is said to be written; answers how many."""
    file = TextFile(path, top)
    for key in written:
        at = file.place(key)
        at = len(file.paragraphs) - 1 if at is None else at
        comment, code = parts_of(file.paragraphs[at])
        file.paragraphs[at] = comment + code + " spoiled"
    path.write_text(file.text)
    return len(written)


class WritingTest(unittest.TestCase):
    def setUp(self):
        self.top = pathlib.Path(tempfile.mkdtemp())
        self.addCleanup(shutil.rmtree, self.top)
        schema_write.copy_of(schema_write.TOP, self.top)
        self.messages = self.top / "messages.txt"
        shutil.copy(HERE / "messages.txt", self.messages)
        schema = schema_file.Schema
        schema_write.Schema = lambda: schema(self.messages)
        self.addCleanup(setattr, schema_write, "Schema", schema)

    def texts(self):
        return {path.relative_to(self.top): path.read_bytes() for path in self.top.rglob("*") if path.is_file()}

    def test_spoiled_paragraphs_are_written_again(self):
        before = self.texts()
        written = {path: file.written for path, file in schema_write.written_files(self.top).items()}
        spoiled = sum(spoil(path, self.top, keys) for path, keys in written.items() if keys)
        self.assertGreater(spoiled, 700)
        self.assertNotEqual(self.texts(), before)
        schema_write.write(self.top)
        self.assertEqual(self.texts(), before)

    def test_a_new_message_is_written_everywhere(self):
        before = self.texts()
        self.messages.write_text(self.messages.read_text() + NEW)
        schema_write.write(self.top)
        after = self.texts()
        changed = {str(path) for path in after if after[path] != before.get(path)} - {"messages.txt"}
        named = {str(path) for path in after if b"TruncateChannelsResponse" in after[path] or b"truncate_channels_response" in after[path]}
        self.assertLessEqual({"docs/schemas/TryChannels.avsc", "docs/MESSAGES.md"}, changed)
        for name in named & changed:
            if not name.endswith("TruncateChannelsResponse.avsc"):
                self.assertIn(b"TryChannelsResponse", after[pathlib.Path(name)].replace(b"try_channels_response", b"TryChannelsResponse"), name)
        crates = sorted({name.split("/")[1] for name in changed if name.startswith("crates/")})
        self.assertEqual(crates, ["capture_text", "client_laws", "client_parts", "etp_frame", "etp_schema", "message_trees", "msg_channel",
                                  "session_core"])
        schema_write.write(self.top)
        self.assertEqual(self.texts(), after)

    def test_what_is_left_of_a_message_is_told(self):
        text = self.messages.read_text()
        self.messages.write_text(text[:text.index("message ChannelDataLoad 10 ")])
        told = "".join(schema_write.strays(schema_write.write(self.top)))
        for left in "impl Typed for", "impl OnWire for", "impl InTree for", "impl WithEntries for":
            self.assertIn(f"{left} TruncateChannelsResponse", told)

    def test_lines_that_cannot_be_read_are_refused(self):
        for line, why in [
            ("message Core 7 Late client\n", "not in the order"), ("record Twice\n    x int\nrecord Twice\n    x int\n", "is defined twice"),
            ("record New\n    x Unknown\n", "no type Unknown"), ("message Core 2000 Odd somebody\n", "client, server or both"),
            ("message Core 2000 Odd client grows x\n    x int\n", "could grow"), ("word\n", "no such kind of line"),
        ]:
            self.messages.write_text((HERE / "messages.txt").read_text() + line)
            with self.assertRaisesRegex(schema_file.SchemaError, why):
                schema_write.written_files(self.top)


if __name__ == "__main__":
    unittest.main()
