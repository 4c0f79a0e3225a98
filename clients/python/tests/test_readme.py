"""What README.md tells a newcomer to type, typed: each command and each example of Python prints what is printed there."""
import doctest
import os
import re
import subprocess
import sys
import tempfile
import tomllib
import unittest
from pathlib import Path

import support
from support import HERE, PATIENCE
from test_cli import environment

README = (HERE.parent / "README.md").read_text(encoding="utf-8")
BLOCKS = re.findall(r"^```(console|pycon|toml)\n(.*?)^```$", README, re.S | re.M)
PORT = "9002"
MARK = "-- the next command --"


def commands(block):
    """The commands of a block, each with what is printed after it."""
    found = []
    for line in block.splitlines():
        if line.startswith("$ "):
            found.append((line[2:], []))
        else:
            found[-1][1].append(line)
    return found


class FirstMinutes(unittest.TestCase):
    def setUp(self):
        for name in ("numpy", "pandas", "matplotlib"):
            try:
                __import__(name)
            except ImportError:
                self.skipTest(f"{name} is not there")
        self.settings = next(text for kind, text in BLOCKS if kind == "toml")
        channels = tomllib.loads(self.settings)["channel"]
        self.server = support.start_server(channels=channels)
        self.addCleanup(self.server.close)
        folder = tempfile.TemporaryDirectory()
        self.addCleanup(folder.cleanup)
        self.folder = Path(folder.name)
        (self.folder / "rig.toml").write_text(self.settings)
        # `python3` is the Python that runs the tests
        (self.folder / "bin").mkdir()
        (self.folder / "bin" / "python3").symlink_to(sys.executable)

    def test_each_block(self):
        exports, counted = "", {"console": 0, "pycon": 0}
        for kind, text in BLOCKS:
            if kind == "console":
                exports = self.check_commands(commands(text), exports)
            elif kind == "pycon":
                self.check_python(text)
            counted[kind] = counted.get(kind, 0) + 1
        self.assertGreaterEqual(counted["console"], 5)
        self.assertEqual(counted["pycon"], 1)

    def check_commands(self, rows, exports):
        """Runs the commands of a block in one shell, after the exports of the blocks before. Returns these with its own."""
        # the server is there already, on another port and under the name of the tests' servers
        typed = [(line, printed) for line, printed in rows if not line.startswith("etpd ")]
        script = exports + "".join(f"{self.here(line)} 2>&1\necho '{MARK}'\n" if not line.startswith("export ") else f"{self.here(line)}\necho '{MARK}'\n"
                                   for line, _ in typed)
        path = f"{self.folder / 'bin'}{os.pathsep}{os.environ['PATH']}"
        done = subprocess.run(
            ["bash", "-c", script], cwd=self.folder, capture_output=True, text=True, env={**environment(), "PATH": path}, timeout=120 * max(1, PATIENCE))
        self.assertEqual(done.stderr, "")
        printed = done.stdout.split(MARK + "\n")
        for (line, wanted), came in zip(typed, printed, strict=False):
            with self.subTest(command=line):
                self.assertEqual(plain(came), plain("".join(each + "\n" for each in wanted)))
        self.assertEqual(len(printed), len(typed) + 1)
        return exports + "".join(self.here(line) + "\n" for line, _ in typed if line.startswith("export "))

    def here(self, line):
        return line.replace(f"127.0.0.1:{PORT}", f"127.0.0.1:{self.server.port}")

    def check_python(self, text):
        test = doctest.DocTestParser().get_doctest(self.here(text), {}, "README.md", "README.md", 0)
        said = []
        runner = doctest.DocTestRunner(optionflags=doctest.NORMALIZE_WHITESPACE)
        runner.run(test, out=said.append)
        self.assertGreater(len(test.examples), 10)
        self.assertEqual(runner.summarize(verbose=False).failed, 0, "".join(said))


def plain(text):
    """What is printed, without the milliseconds of a ping and the name of the server, which is another in the tests."""
    return re.sub(r"pong [0-9.]+ ms from \w+", "pong", text)


if __name__ == "__main__":
    unittest.main()
