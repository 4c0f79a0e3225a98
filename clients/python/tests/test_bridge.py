"""The bridge into Redis: each of the three is stopped and started under load, and the streams come to have the channels' points."""
import asyncio
import random
import shutil
import signal
import subprocess
import tempfile
import threading
import time
import unittest
from pathlib import Path

import outside_server
import support
from support import channel_uri
from test_cli import begin_command, free_port
from test_links import Proxy
import colmjurr
from colmjurr import bridge

WAIT = 180 * max(1, support.PATIENCE)
HOW = {"ask_timeout": 120 * support.PATIENCE, "timeout": 60 * support.PATIENCE}
CHANNELS = [dict(uri=channel_uri(number), name=f"c{number}", kind=kind, uom="") for number, kind in enumerate(("double", "long", "string"))]


class Engine:
    """A Redis of the test's own, which keeps what it took when it is killed."""

    def __init__(self, folder):
        self.folder, self.port = folder, free_port()
        self.start()

    def start(self):
        self.process = subprocess.Popen(
            ["redis-server", "--port", str(self.port), "--bind", "127.0.0.1", "--dir", self.folder, "--appendonly", "yes", "--appendfsync", "always",
             "--save", ""], stdout=subprocess.DEVNULL)
        import redis

        end = time.monotonic() + WAIT
        while True:
            try:
                self.client = redis.Redis(port=self.port)
                self.client.ping()
                return
            except redis.exceptions.RedisError:
                if time.monotonic() > end:
                    raise
                time.sleep(0.05)

    def kill(self):
        self.process.kill()
        self.process.wait()

    def entries(self, uri, kind):
        return [bridge.read_entry(fields, kind) for _, fields in self.client.xrange(f"etp:{uri}")]

    def points(self, uri, kind):
        copy = bridge.fold(self.entries(uri, kind))
        return list(zip(copy.indexes, copy.values))


class Differences(unittest.TestCase):
    def test_the_entries_make_one_list_the_other(self):
        draw = random.Random(9)
        for _ in range(3000):
            known, wanted = ([(at, draw.choice([1, 1, 1, 2, None])) for at in sorted(draw.sample(range(30), draw.randrange(12)))] for _ in range(2))
            if draw.random() < 0.5:
                wanted = [each for each in known if draw.random() < 0.9] + [(at, 5) for at in range(31, 31 + draw.randrange(3))]
            entries = list(bridge.differences(known, wanted))
            copy = bridge.fold(entries, bridge.fold([bridge.Entry("append", 0, 0, known)] if known else []))
            self.assertEqual(list(zip(copy.indexes, copy.values)), wanted, (known, entries))
            self.assertEqual(entries == [], known == wanted)

    def test_a_point_twice_is_found_out(self):
        with self.assertRaises(ValueError):
            bridge.fold([bridge.Entry("append", 0, 0, [(1, 1)]), bridge.Entry("append", 0, 0, [(1, 1)])])

    def test_values_come_back(self):
        for kind, values in (("double", [1.5, None, float("inf"), -0.0]), ("bytes", [b"\0\xff", None]), ("string", ["é", None]), ("long", [1 << 60, None]), ("boolean", [True, None])):
            entry = bridge.Entry("append", 0, 0, list(enumerate(values)))
            fields = {name.encode(): str(value).encode() for name, value in entry.fields().items()}
            self.assertEqual(bridge.read_entry(fields, kind), entry)


class Kills(unittest.TestCase):
    def setUp(self):
        if not shutil.which("redis-server"):
            self.skipTest("redis-server is not there")
        try:
            import redis  # noqa: F401
        except ImportError:
            self.skipTest("python3-redis is not there")
        folder = tempfile.TemporaryDirectory()
        self.addCleanup(folder.cleanup)
        self.engine = Engine(folder.name)
        self.addCleanup(lambda: self.engine.kill())
        self.server = support.start_server(channels=CHANNELS)
        self.addCleanup(self.server.close)
        self.proxy = Proxy(self.server.port)
        self.addCleanup(self.proxy.close)
        self.catalog = Path(folder.name, "server.toml")
        self.catalog.write_text(support.configuration(channels=CHANNELS))
        self.bridges = []
        self.addCleanup(self.stop)

    def start(self):
        process = begin_command("bridge", "--store", f"{self.proxy.url}={self.catalog}", "--redis", f"redis://127.0.0.1:{self.engine.port}/0")
        self.bridges.append(process)
        self.said = []
        threading.Thread(target=lambda: self.said.extend(process.stderr), daemon=True).start()
        return process

    def stop(self):
        for process in self.bridges:
            process.kill()
            process.wait()
            process.stdin.close()
            process.stdout.close()

    def until_same(self, store):
        end = time.monotonic() + WAIT
        while True:
            held = {each["uri"]: list(store.channel(each["uri"]).range()) for each in CHANNELS}
            try:
                found = {each["uri"]: self.engine.points(each["uri"], each["kind"]) for each in CHANNELS}
            except OSError:
                found = None
            if held == found:
                return held
            self.assertLess(time.monotonic(), end, self.said[-5:])
            time.sleep(0.1)

    def until_more(self, loaded):
        """Returns when the bridge has written a point whose load began after the call."""
        end, before = time.monotonic() + WAIT, len(loaded)
        while True:
            # the first load that ends after the call may have begun before it
            if len(loaded) > before + 1:
                found = self.engine.points(channel_uri(0), "double")
                if found and found[-1][0] >= loaded[before + 1]:
                    return
            self.assertLess(time.monotonic(), end, self.said[-5:])
            time.sleep(0.05)

    def test_each_of_the_three_is_killed_under_load(self):
        """Redis, the bridge, the link and the server in turn. A server keeps its data in memory, so the one that comes after it is empty."""
        process = self.start()
        done = threading.Event()
        loaded = []
        rig = threading.Thread(target=self.load, args=(done, loaded), daemon=True)
        rig.start()
        for _ in range(2):
            self.until_more(loaded)
            self.engine.kill()
            time.sleep(0.4)
            self.engine.start()
            self.until_more(loaded)
            process.send_signal(signal.SIGKILL)
            process.wait()
            time.sleep(0.3)
            process = self.start()
            self.until_more(loaded)
            self.proxy.cut_all()
            self.until_more(loaded)
            self.server.close()
            time.sleep(0.3)
            self.server = support.start_server(channels=CHANNELS)
            self.addCleanup(self.server.close)
            self.proxy.target = self.server.port
            self.until_more(loaded)
        done.set()
        rig.join(WAIT)
        with colmjurr.connect(self.server.url, **HOW) as store:
            held = self.until_same(store)
        self.assertGreater(len(held[channel_uri(0)]), 20)
        self.assertEqual(loaded[-1], held[channel_uri(0)][-1][0])
        self.assertIsNone(process.poll())

    def load(self, done, loaded):
        """Loads three channels, and corrects them now and then, on the server of the moment."""
        place = 0
        while not done.is_set():
            try:
                with colmjurr.connect(self.server.url, patience=0, **HOW) as store:
                    rop, count, remark = store.channels([each["uri"] for each in CHANNELS])
                    while not done.is_set():
                        begin, place = 10 * place, place + 10
                        at = range(10 * begin, 10 * begin + 100, 10)
                        rop.load(list(at), [index / 8 for index in at])
                        count.load(list(at), list(at))
                        remark.load([at[0]], [f"step {place}"])
                        if place % 50 == 0:
                            rop.replace(at[2], at[4], [at[3]], [-1.0])
                            count.truncate(at[7])
                        loaded.append(at[-1])
                        time.sleep(0.01)
            except colmjurr.LinkError:
                time.sleep(0.05)

    def test_a_server_that_comes_back_empty(self):
        self.start()
        with colmjurr.connect(self.server.url, **HOW) as store:
            store.channel(channel_uri(1)).load([1, 2, 3], [1, 2, 3])
            self.until_same(store)
        self.server.close()
        again = support.start_server(channels=CHANNELS)
        self.addCleanup(again.close)
        self.proxy.target = again.port
        self.proxy.cut_all()
        with colmjurr.connect(again.url, **HOW) as store:
            store.channel(channel_uri(1)).load([2, 5], [2, 5])
            self.until_same(store)
        changes = [entry.change for entry in self.engine.entries(channel_uri(1), "long")]
        self.assertLessEqual(len(changes), 4, changes)

    def test_streams_that_no_bridge_has_written(self):
        """The bridge ends, and names the entry and what is wrong with it."""
        key = f"etp:{channel_uri(1)}"
        good = {"change": "append", "start": 0, "end": 0, "points": "[[1, 1]]"}
        for entries, text in (
                ([("5-3", good)], "entry 5-3 that no bridge has written: its id does not follow 0-0"), ([("1-0", {"x": "y"})], "it has no field b'points'"),
                ([("1-0", {**good, "points": "[[1"})], "entry 1-0"), ([("1-0", {**good, "points": "[1]"})], "entry 1-0"),
                ([("1-0", {**good, "change": "undo"})], "'undo' is no change"), ([("1-0", {**good, "end": "x"})], "entry 1-0"),
                ([("1-0", good), ("2-0", good)], "an append at 1 after 1")):
            with self.subTest(text=text):
                self.engine.client.delete(key)
                for number, fields in entries:
                    self.engine.client.xadd(key, fields, id=number)
                process = self.start()
                self.assertEqual(process.wait(WAIT), 12)
                end = time.monotonic() + WAIT
                while not any(text in line for line in self.said):
                    self.assertLess(time.monotonic(), end, self.said)
                    time.sleep(0.05)

    def test_two_bridges_of_one_channel(self):
        self.start()
        with colmjurr.connect(self.server.url, **HOW) as store:
            store.channel(channel_uri(1)).load([1], [1])
            self.until_same(store)
            self.start()
            time.sleep(0.5)
            for index in range(2, 30):
                store.channel(channel_uri(1)).load([index], [index])
            self.until_same(store)


if __name__ == "__main__":
    unittest.main()
