"""What the tests share: a server to talk to, and names.

`COLMJURR_PROGRAMS` names a folder with the built programs; its `etpd` serves the tests then. Without it a server from outside does.
"""
import logging
import os
import re
import subprocess
import sys
import tempfile
import threading
import unittest
import uuid
from pathlib import Path

HERE = Path(__file__).resolve().parent
ROOT = HERE.parents[2]
sys.path.insert(0, str(HERE.parent / "src"))
sys.path.insert(0, str(HERE))

import outside_server  # noqa: E402

# asyncio logs each write to a connection that a proxy has cut
logging.getLogger("asyncio").setLevel(logging.CRITICAL)

PROGRAMS = os.environ.get("COLMJURR_PROGRAMS", "")
# All time limits are multiplied by this, for a server that is slow because of its run-time checks.
PATIENCE = float(os.environ.get("COLMJURR_PATIENCE", "1"))
KINDS = ["double", "long", "string", "boolean", "int", "float", "bytes"]


def channel_uri(number):
    return f"eml:///witsml21.Channel({uuid.UUID(int=number)})"


def well_uri(number, space=""):
    front = f"eml:///dataspace('{space}')/" if space else "eml:///"
    return f"{front}witsml21.Well({uuid.UUID(int=number)})"


CHANNELS = [dict(uri=channel_uri(number), name=f"c{number}", kind=kind, uom="m/h" if number == 0 else "") for number, kind in enumerate(KINDS)]


def configuration(channels=CHANNELS, lag=65_536, journal=4_194_304, types=None):
    lines = [f'instance = "{uuid.UUID(int=1)}"', 'name = "wd"', f"lag = {lag}", f"journal = {journal}"]
    if types is not None:
        lines.append(f"types = {types!r}".replace("'", '"'))
    for each in channels:
        lines += ["[[channel]]", f'uri = "{each["uri"]}"', f'name = "{each["name"]}"', f'kind = "{each["kind"]}"', f'uom = "{each["uom"]}"']
    return "\n".join(lines) + "\n"


class RealServer:
    """A built `etpd` on a port of the loopback."""

    def __init__(self, program, port=0, **settings):
        self.folder = tempfile.TemporaryDirectory()
        path = Path(self.folder.name, "server.toml")
        path.write_text(configuration(**settings))
        self.process = subprocess.Popen(
            [program, str(path), f"127.0.0.1:{port}"], stdin=subprocess.DEVNULL, stdout=subprocess.DEVNULL, stderr=subprocess.PIPE)
        limit = threading.Timer(60 * max(1, PATIENCE), self.process.kill)
        limit.daemon = True
        limit.start()
        line = self.process.stderr.readline()
        limit.cancel()
        found = re.search(rb"([0-9]+)\s*$", line)
        if not found:
            raise RuntimeError(f"etpd says {line!r}")
        # it writes a line for each session that ends, and would wait for a reader when the pipe is full
        self.log = []
        self.reader = threading.Thread(target=lambda: self.log.extend(self.process.stderr), daemon=True)
        self.reader.start()
        self.port = int(found[1])
        self.url = f"ws://127.0.0.1:{self.port}/"

    def close(self):
        """Ends the server at once, as a kill does."""
        if self.process.returncode is not None:
            return
        self.process.kill()
        self.process.wait()
        self.reader.join(10)
        self.process.stderr.close()
        self.folder.cleanup()


def program(name):
    """The path of a built program, or None."""
    path = Path(PROGRAMS, name)
    return str(path) if PROGRAMS and path.exists() else None


def start_server(channels=CHANNELS, lag=65_536, journal=4_194_304, types=None, port=0):
    built = program("etpd")
    if built:
        return RealServer(built, port, channels=channels, lag=lag, journal=journal, types=types)
    return outside_server.OutsideServer(channels, lag, journal, types, port)


class ServerCase(unittest.TestCase):
    """A case with a server of its own for the class."""

    settings = {}

    @classmethod
    def setUpClass(cls):
        cls.server = start_server(**cls.settings)

    @classmethod
    def tearDownClass(cls):
        cls.server.close()

    def connect(self, **how):
        import colmjurr

        store = colmjurr.connect(self.server.url, **{"ask_timeout": 120 * PATIENCE, "timeout": 60 * PATIENCE, **how})
        self.addCleanup(store.close)
        return store
