"""What is refused of a configuration: the first refusal in the server's order, with its line, key and numbers."""
import re
import subprocess
import tempfile
import unittest
from pathlib import Path

import support
from support import PATIENCE, channel_uri, program
from colmjurr import ConfigError
from colmjurr.configuration import catalog, read_configuration

HEAD = 'instance = "00000000-0000-0000-0000-000000000001"\nname = "wd"\n'
CHANNEL = f'[[channel]]\nuri = "{channel_uri(1)}"\nname = "c"\nkind = "long"\n'

# Documents, the line that the error names, the key, and the server's numbers of key and channel.
CASES = [
    ("", 0, "instance", 1, 0),
    ('name = "x"\n', 0, "instance", 1, 0),
    ("instance = 5\n", 1, "instance", 1, 0),
    ('# a comment\ninstance = "x"\n', 2, "instance", 1, 0),
    ('instance = "00000000-0000-0000-0000-000000000001"\n', 0, "name", 2, 0),
    (HEAD.replace('"wd"', '""'), 2, "name", 2, 0),
    (HEAD.replace('"wd"', '"' + "x" * 257 + '"'), 2, "name", 2, 0),
    (HEAD + "lag = 0\n", 3, "lag", 3, 0),
    (HEAD + "lag = 65_537\n", 3, "lag", 3, 0),
    (HEAD + "lag = true\n", 3, "lag", 3, 0),
    (HEAD + "lag = 1\njournal = 1\n", 4, "journal", 4, 0),
    (HEAD + "journal = 4_194_305\n", 3, "journal", 4, 0),
    (HEAD + 'types = ["witsml21"]\n', 3, "types", 5, 0),
    (HEAD + 'types = "witsml21.*"\n', 3, "types", 5, 0),
    (HEAD + "types = [1]\n", 3, "types", 5, 0),
    (HEAD + "channel = 1\n", 3, "channel", 6, 0),
    (HEAD + "channel = [1]\n", 3, "channel", 6, 0),
    (HEAD + "[channel]\n", 0, "channel", 6, 0),
    (HEAD + "[[channel]]\n", 3, "uri", 7, 1),
    (HEAD + CHANNEL + "[[channel]]\nname = 5\n", 7, "uri", 7, 2),
    (HEAD + CHANNEL.replace('name = "c"', ""), 3, "name", 8, 1),
    (HEAD + CHANNEL.replace('"c"', '""'), 5, "name", 8, 1),
    (HEAD + CHANNEL.replace('kind = "long"', ""), 3, "kind", 9, 1),
    (HEAD + CHANNEL.replace('"long"', "1"), 6, "kind", 9, 1),
    (HEAD + CHANNEL + f'uom = "{"x" * 65}"\n', 7, "uom", 10, 1),
    (HEAD + CHANNEL + "uom = 1\n", 7, "uom", 10, 1),
]
# Those that the server refuses without a key's number.
OTHERS = [
    (HEAD + CHANNEL.replace(channel_uri(1), "eml:///"), 4, "uri"),
    (HEAD + CHANNEL.replace(channel_uri(1), "x"), 4, "uri"),
    (HEAD + CHANNEL.replace('"long"', '"number"'), 6, "kind"),
    (HEAD + CHANNEL + CHANNEL, 8, "uri"),
    (HEAD + CHANNEL + CHANNEL.replace(channel_uri(1), channel_uri(1).upper().replace("EML", "eml").replace("WITSML21.CHANNEL", "witsml21.Channel")), 8, "uri"),
    ("x", 1, ""), ("a = 1\na = 2\n", 2, ""), ("a = 1\nb = \n", 2, ""), ('a = "\n', 1, ""),
]


class Configurations(unittest.TestCase):
    def refused(self, text):
        with self.assertRaises(ConfigError) as caught:
            read_configuration(text.encode())
        return caught.exception

    def test_a_whole_one(self):
        text = HEAD + 'lag = 5\njournal = 100\ntypes = ["witsml21.*", "eml23.Log_1"]\nother = 1\n' + CHANNEL + 'uom = "m"\n'
        found = read_configuration(text.encode())
        self.assertEqual((found.name, found.lag, found.journal, found.types), ("wd", 5, 100, ["witsml21.*", "eml23.Log_1"]))
        self.assertEqual(catalog(found), {"name": "wd", "channels": [{"uri": channel_uri(1), "name": "c", "kind": "long", "uom": "m"}]})
        for instance in ("0" * 31 + "1", "{00000000-0000-0000-0000-000000000001}", "URN:UUID:00000000-0000-0000-0000-00000000000A"):
            read_configuration(f'instance = "{instance}"\nname = "x"\n'.encode())
        self.assertEqual(read_configuration(HEAD.encode())[2:], (65_536, 4_194_304, None, []))

    def test_lines_keys_and_numbers(self):
        for text, line, key, number, channel in CASES:
            with self.subTest(text=text[-90:]):
                error = self.refused(text)
                self.assertEqual((error.line, error.key, error.number, error.channel), (line, key, number, channel), error)
        for text, line, key in OTHERS:
            with self.subTest(text=text[-90:]):
                error = self.refused(text)
                self.assertEqual((error.line, error.key), (line, key), error)

    def test_what_is_too_long(self):
        self.assertIn("1,048,576", str(self.refused("#" * 1_048_577)))
        read_configuration((HEAD + "#" * (1_048_576 - len(HEAD))).encode())
        many = "".join(f'[[channel]]\nuri = "{channel_uri(number)}"\nname = "c"\nkind = "long"\n' for number in range(4097))
        self.assertIn("4097 channels", str(self.refused(HEAD + many)))
        with self.assertRaises(ConfigError):
            read_configuration(b"\xff")

    def test_the_server_refuses_the_same_key(self):
        etpd = program("etpd")
        if etpd is None:
            self.skipTest("no built etpd")
        with tempfile.TemporaryDirectory() as folder:
            path = Path(folder, "server.toml")
            for text, _, _, number, channel in CASES:
                path.write_text(text)
                done = subprocess.run([etpd, str(path), "127.0.0.1:0"], capture_output=True, text=True, timeout=60 * max(1, PATIENCE))
                self.assertEqual(done.returncode, 2, text)
                told = re.search(r"key (\d+) of channel (\d+)", done.stderr)
                self.assertEqual((int(told[1]), int(told[2])), (number, channel), (text, done.stderr))
            for text, _, _ in OTHERS:
                path.write_text(text)
                self.assertEqual(subprocess.run([etpd, str(path), "127.0.0.1:0"], capture_output=True, timeout=60 * max(1, PATIENCE)).returncode, 2, text)


if __name__ == "__main__":
    unittest.main()
