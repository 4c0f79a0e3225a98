"""The command line, in processes of its own, against a running server."""
import importlib.util
import json
import os
import re
import signal
import socket
import subprocess
import sys
import tempfile
import threading
import time
import unittest
from pathlib import Path

import support
from support import CHANNELS, HERE, PATIENCE, ROOT, ServerCase, channel_uri, well_uri
import colmjurr

WAIT = 180 * max(1, PATIENCE)


def environment():
    return {**os.environ, "PYTHONPATH": str(HERE.parent / "src"), "PYTHONUNBUFFERED": "1", "MPLCONFIGDIR": tempfile.gettempdir()}


def run(*words, given=None, status=0, also_errors=False):
    """What a command writes: to its output, or if a status other than 0 is expected to its standard error; or both."""
    done = subprocess.run([sys.executable, "-m", "colmjurr", *map(str, words)], input=given, capture_output=True, timeout=WAIT, env=environment(), text=True)
    if done.returncode != status:
        raise AssertionError(f"{words}: status {done.returncode}, {done.stdout[-500:]}{done.stderr[-1500:]}")
    return (done.stdout, done.stderr) if also_errors else done.stdout if status == 0 else done.stderr


def begin_command(*words):
    """A command in a process of its own, which is killed after a while, so that nobody waits for its next line for ever."""
    process = subprocess.Popen(
        [sys.executable, "-m", "colmjurr", *map(str, words)], stdin=subprocess.PIPE, stdout=subprocess.PIPE, stderr=subprocess.PIPE, env=environment(), text=True)
    limit = threading.Timer(4 * WAIT, process.kill)
    limit.daemon = True
    limit.start()
    return process


def free_port():
    with socket.socket() as found:
        found.bind(("127.0.0.1", 0))
        return found.getsockname()[1]


class CommandCase(ServerCase):
    def setUp(self):
        self.url = self.server.url
        folder = tempfile.TemporaryDirectory()
        self.addCleanup(folder.cleanup)
        self.folder = Path(folder.name)


class Commands(CommandCase):
    def test_objects(self):
        path = self.folder / "well.xml"
        path.write_bytes(b"<Well/>\n")
        self.assertEqual(run("put", self.url, well_uri(1), path), f"put {well_uri(1)}\n")
        self.assertEqual(run("get", self.url, well_uri(1)), "<Well/>\n")
        run("get", self.url, well_uri(1), "-o", self.folder / "out.xml")
        self.assertEqual((self.folder / "out.xml").read_bytes(), b"<Well/>\n")
        self.assertIn("eml:/// ", run("spaces", self.url))
        self.assertRegex(run("ping", self.url), r"pong [0-9.]+ ms from wd")
        self.assertEqual(run("delete", self.url, well_uri(1)), f"deleted {well_uri(1)}\n")
        self.assertIn("refused 11", run("get", self.url, well_uri(1), status=9))

    def test_what_is_loaded_reads_back(self):
        for number, lines in ((0, "10 1.5\n20 -0.1\n30 1e+300\n"), (1, "10 5\n20 -7\n"), (2, "10 a b\n20 \n30 é\n"), (3, "10 true\n20 false\n"), (6, "10 00ff\n20 \n")):
            self.assertEqual(run("load", self.url, channel_uri(number), given=lines), f"loaded {lines.count(chr(10))}\n")
            self.assertEqual(run("range", self.url, channel_uri(number)), lines)
        table = run("range", self.url, channel_uri(0), 20, "1970-01-01T00:00:00.000030Z", "--csv")
        self.assertEqual(table, "time,c0\n1970-01-01T00:00:00.000020Z,-0.1\n1970-01-01T00:00:00.000030Z,1e+300\n")
        path = self.folder / "points.csv"
        path.write_text("time,x\n2026-12-01T00:00:00Z,1\n2026-12-01T00:00:01Z,\n1796083202000000,3\n")
        self.assertEqual(run("load", self.url, channel_uri(4), path, "--csv"), "loaded 3\n")
        self.assertEqual(run("load", self.url, channel_uri(4), path, "--csv", "--skip-known"), "loaded 0 skipped 3\n")
        self.assertIn("refused 31, the points from index 1796083200000000 on", run("load", self.url, channel_uri(4), path, "--csv", status=9))
        self.assertEqual(run("range", self.url, channel_uri(4), "--csv", "--microseconds"), "index_us,c4\n1796083200000000,1\n1796083201000000,\n1796083202000000,3\n")

    def test_a_follower_sees_what_is_loaded_as_it_comes(self):
        office = begin_command("follow", self.url, channel_uri(5), "--from", "first")
        rig = begin_command("load", self.url, channel_uri(5), "--every", "0.05")
        rig.stdin.write("10 0.5\n")
        rig.stdin.flush()
        self.assertEqual(office.stdout.readline(), "append 10 0.5\n")
        rig.stdin.write("20 1.5\n30 2.5\n")
        rig.stdin.flush()
        self.assertEqual([office.stdout.readline() for _ in range(2)], ["append 20 1.5\n", "append 30 2.5\n"])
        out, _ = rig.communicate(timeout=WAIT)
        self.assertEqual((out, rig.returncode), ("loaded 3\n", 0))
        with self.connect() as store:
            channel = store.channel(channel_uri(5))
            channel.replace(15, 25, [22], [9.0])
            channel.truncate(22)
        self.assertEqual([office.stdout.readline() for _ in range(3)], ["replace 15 25\n", "with 22 9.0\n", "truncate 22\n"])
        office.kill()
        office.communicate()

    def test_statuses(self):
        listed, wrong, empty = self.folder / "objects", self.folder / "wrong.toml", self.folder / "catalog.json"
        listed.write_text(f"{well_uri(1)}\ta\nwell\n")
        wrong.write_text('instance = "00000000-0000-0000-0000-000000000001"\nname = 5\n')
        empty.write_text("{}")
        for words, status, text in (
                ([], 1, "usage"), (["no"], 1, "invalid choice"), (["get", self.url], 1, "required"), (["get", "http://x/", well_uri(1)], 12, "not an address"),
                (["get", "ws://127.0.0.1:1/", well_uri(1)], 10, "no connection"), (["put", self.url, well_uri(1), "/none"], 4, "/none"),
                (["range", self.url, channel_uri(99)], 9, "refused 11"), (["range", self.url, channel_uri(0), "yesterday"], 12, "yesterday"),
                (["plot", self.url, channel_uri(2), "-o", "x.png"], 12, "not numbers"), (["check-config", "/none"], 4, "/none"),
                (["plot", self.url, channel_uri(0), "-o", self.folder / "x.doc"], 12, "doc"), (["ping", self.url, "--header", "x"], 1, "NAME:VALUE"),
                (["ping", self.url, "--timeout", "0"], 1, "--timeout"), (["ping", self.url, "--timeout", "nan"], 1, "--timeout"),
                (["exporter", self.url, "--listen", "x"], 1, "HOST:PORT"), (["exporter", self.url, "--listen", "127.0.0.1:70000"], 1, "HOST:PORT"),
                (["load", self.url, channel_uri(0), "--most", "0"], 1, "--most"), (["ping", "ws://u:secret@127.0.0.1:1/"], 12, "user name"),
                (["bridge", "--store", self.url], 12, "URL=CATALOG"), (["conformance"], 12, "--etpd"),
                (["conformance", self.url, self.folder], 12, "no capture"), (["conformance", self.url, ROOT / "docs" / "samples"], 12, "--restart"),
                (["copy", self.url, self.url, "--objects", listed], 12, f"{listed}: line 2: 'well' is not the URI of an object"),
                (["catalog", wrong], 2, f"{wrong}:2: name: is not a text of 1 to 256 bytes (key 2 of channel 0)"),
                (["check-config", wrong], 2, f"{wrong}:2: name: "), (["exporter", self.url, "--catalog", wrong], 2, f"{wrong}:2: name: "),
                (["exporter", self.url, "--catalog", empty], 12, "is not a catalog"), (["range", self.url, channel_uri(0), "9" * 5000], 12, "not a moment")):
            needed = {"plot": "matplotlib", "bridge": "redis"}.get(next(iter(words), None))
            if needed and importlib.util.find_spec(needed) is None:
                status, text = 1, f"needs the package {needed}, which is not installed"
            with self.subTest(words=words):
                self.assertIn(text, run(*words, status=status))
        # files without an end are given up before they take memory
        for words, status, text in (
                (["put", self.url, well_uri(1), "/dev/zero"], 12, "more than 67,108,864 bytes"), (["check-config", "/dev/zero"], 2, "more than 1,048,576 bytes"),
                (["exporter", self.url, "--catalog", "/dev/zero"], 12, "more than 16,777,216 bytes"),
                (["copy", self.url, self.url, "--objects", "/dev/zero"], 12, "more than 16,777,216 bytes"),
                (["ping", self.url, "--password-file", "/dev/zero"], 12, "more than 16,777,216 bytes"),
                (["load", self.url, channel_uri(1), "/dev/zero"], 12, "input line 1: more than 1,048,576 bytes")):
            with self.subTest(words=words):
                self.assertIn(text, run(*words, status=status))
        for line, text in (("x 1", "line 1"), ("1", "no value"), ("1 x", "line 1"), ("5 1\n4 1", "does not rise")):
            with self.subTest(line=line):
                self.assertIn(text, run("load", self.url, channel_uri(1), given=line + "\n", status=12))
        with self.connect() as store:
            store.channel(channel_uri(1)).truncate(0)


class Lines(CommandCase):
    """What is read from lines and tables, and written to them."""

    def test_texts_and_nulls(self):
        with self.connect() as store:
            channel = store.channel(channel_uri(2))
            begin = (channel.last or 0) + 1
            channel.load([begin, begin + 1, begin + 2], ["a", None, "b"])
            done = run("range", self.url, channel_uri(2), begin, begin + 2, also_errors=True)
            self.assertEqual(done, (f"{begin} a\n{begin + 2} b\n", "colmjurr: 1 points without a value are left out; --csv writes them\n"))
            texts = ["c\rd", "e\r", "f\ng", 'h "i", j', " k ", "l\\n"]
            channel.load(list(range(begin + 10, begin + 16)), texts)
            self.assertIn(f"the text at index {begin + 10} has a line break: use --csv", run("range", self.url, channel_uri(2), begin + 10, status=12))
            table = self.folder / "texts.csv"
            run("range", self.url, channel_uri(2), begin + 10, "-", "--csv", "--microseconds", "-o", table)
            channel.truncate(begin + 2)
            self.assertEqual(run("load", self.url, channel_uri(2), table, "--csv"), "loaded 6\n")
            self.assertEqual([value for _, value in channel.range(begin + 10)], texts)

    def test_the_line_of_a_bad_point(self):
        with self.connect() as store:
            begin = (store.channel(channel_uri(4)).last or 0) + 1
        good = "".join(f"{begin + place} {place}\n" for place in range(3000))
        for number, line, text in (
                (4, "x 1", "not a moment"), (4, f"{begin + 5000}", "no value"), (4, f"{begin + 5000} 1.5", "'1.5' is not a whole number"),
                (4, f"{begin + 5000} 2147483648", "out of range of int"), (4, f"{begin} 1", "does not rise above"),
                (4, "9999999999999999999 1", "is out of range"), (5, f"{begin} 1e39", "out of range of float"), (5, f"{begin} a", "not a number"),
                (3, f"{begin} yes", "not a boolean"), (6, f"{begin} 0g", "not hexadecimal"), (2, f"{begin} " + "x" * 32_769, "32,769 bytes, more than 32,768")):
            with self.subTest(line=line[:60]):
                given = (good if number == 4 else "") + line + "\n"
                said = run("load", self.url, channel_uri(number), "--skip-known", given=given, status=12)
                self.assertIn(f"input line {given.count(chr(10))}: ", said)
                self.assertIn(text, said)
        # what came before the bad line was loaded, once
        self.assertEqual(run("range", self.url, channel_uri(4), begin), good)
        self.assertIn("0 points were loaded", run("load", self.url, channel_uri(4), given=f"{begin} 1\n", status=9))
        path = self.folder / "bad.csv"
        path.write_bytes(b'time,x\r\n1,"a\nb"\r\n2,\xff\r\n')
        self.assertIn("input line 4: not UTF-8", run("load", self.url, channel_uri(2), path, "--csv", status=12))
        path.write_bytes(b"time,x\n1,1\n\n1,2\n")
        self.assertIn("input line 4: the index 1 does not rise above 1", run("load", self.url, channel_uri(0), path, "--csv", "--skip-known", status=12))

    def test_a_table_that_comes_bit_by_bit_is_loaded_as_it_comes(self):
        with self.connect() as store:
            channel = store.channel(channel_uri(2))
            begin = (channel.last or 0) + 1
            with channel.watch(start="now") as watch:
                rig = begin_command("load", self.url, channel_uri(2), "--csv", "--every", "0.05")
                for text, wanted in ((f"time,x\r\n{begin},a\r\n", ["a"]), (f'{begin + 1},"b\nc', None), (f'"\r\n{begin + 2},d\r\n', ["b\nc", "d"])):
                    rig.stdin.write(text)
                    rig.stdin.flush()
                    seen = []
                    while wanted and len(seen) < len(wanted):
                        seen += watch.next(WAIT).points.values
                    self.assertEqual(seen, wanted or [])
                out, _ = rig.communicate(timeout=WAIT)
                self.assertEqual((out, rig.returncode), ("loaded 3\n", 0))

    def test_an_input_that_does_not_block(self):
        with self.connect() as store:
            begin = (store.channel(channel_uri(1)).last or 0) + 1
        there, here = os.pipe()
        os.set_blocking(there, False)
        rig = subprocess.Popen(
            [sys.executable, "-m", "colmjurr", "load", self.url, channel_uri(1)], stdin=there, stdout=subprocess.PIPE, env=environment(), text=True)
        os.close(there)
        with open(here, "wb", buffering=0) as pipe:
            for index in (begin, begin + 1):
                time.sleep(0.5)
                pipe.write(f"{index} 1\n".encode())
        self.assertEqual((rig.communicate(timeout=WAIT)[0], rig.returncode), ("loaded 2\n", 0))

    def test_channels(self):
        path = self.folder / "server.toml"
        path.write_text(support.configuration())
        lines = run("channels", self.url, "--catalog", path).splitlines()
        self.assertEqual([line.split("\t")[0] for line in lines], [each["name"] for each in CHANNELS])
        with self.connect() as store:
            channel = store.channel(channel_uri(5))
            channel.load([(channel.last or 0) + 1_000_000], [1.0])
            channel.refresh()
            ends = [colmjurr.points.moment_text(each) for each in (channel.first, channel.last)]
        self.assertEqual(run("channels", self.url, channel_uri(5)), "\t".join(["c5", "float", "-", *ends, channel_uri(5)]) + "\n")
        self.assertIn("no request lists them", run("channels", self.url, status=12))
        self.assertIn("refused 11", run("channels", self.url, channel_uri(99), status=9))

    def test_changes_for_programs(self):
        with self.connect() as store:
            channel = store.channel(channel_uri(6))
            channel.truncate(0)
            office = begin_command("follow", self.url, channel_uri(6), "--json", "--from", "first")
            try:
                channel.load([10, 20, 30], [b"\0\xff", None, b""])
                wanted = {"change": "append", "points": [[10, "00ff"], [20, None], [30, ""]]}
                self.assertEqual(json.loads(office.stdout.readline()), {"channel": channel_uri(6), **wanted})
                channel.replace(15, 25)
                channel.truncate(10)
                for wanted in ({"change": "replace", "start": 15, "end": 25, "points": []}, {"change": "truncate", "end": 10}):
                    self.assertEqual(json.loads(office.stdout.readline()), {"channel": channel_uri(6), **wanted})
            finally:
                office.kill()
                office.communicate()


class Plotting(CommandCase):
    def test_a_plot(self):
        try:
            import matplotlib  # noqa: F401
        except ImportError:
            self.skipTest("matplotlib is not there")
        second = 1_000_000
        with self.connect() as store:
            store.channel(channel_uri(0)).load([1_796_083_200 * second + place * second for place in range(100)], [place / 7 for place in range(100)])
            store.channel(channel_uri(1)).load([1_796_083_200 * second + place * second for place in range(100)], list(range(100)))
        path = self.folder / "log.png"
        self.assertIn("plotted 100 points", run("plot", self.url, channel_uri(0), "-o", path, "--depth", channel_uri(1)))
        self.assertEqual(path.read_bytes()[:8], b"\x89PNG\r\n\x1a\n")
        run("plot", self.url, channel_uri(0), channel_uri(1), "-o", self.folder / "log.svg", "--from", "2026-12-01T00:00:10")
        self.assertIn("[m/h]", re.sub(r"<!--|-->", "", (self.folder / "log.svg").read_text()))


class Conformance(unittest.TestCase):
    """Each sample against a fresh server; and a server that answers otherwise is found out."""

    def test_all_samples_by_a_built_server(self):
        etpd, samples = support.program("etpd"), ROOT / "docs" / "samples"
        if etpd is None or not samples.is_dir():
            self.skipTest("no built etpd, or no docs/samples")
        lines = run("conformance", "--etpd", etpd, "--timeout", WAIT, samples).splitlines()
        self.assertGreater(len(lines), 10)
        self.assertTrue(all(line.endswith(": as recorded") for line in lines), lines)

    def test_the_shipped_session(self):
        from colmjurr import conformance

        data = ROOT / "crates" / "etptool" / "data"
        server = support.start_server(channels=[])
        self.addCleanup(server.close)
        sample, answers = (data / "session.cap").read_bytes(), (data / "answers.cap").read_bytes()
        with tempfile.TemporaryDirectory() as folder:
            Path(folder, "session.cap").write_bytes(sample)
            Path(folder, "session.answers.cap").write_bytes(answers)
            self.assertEqual(run("conformance", server.url, Path(folder, "session.cap")), "session: as recorded\n")
            # the same once more meets a server with a history
            again = subprocess.run(
                [sys.executable, "-m", "colmjurr", "conformance", server.url, str(Path(folder))], capture_output=True, text=True, env=environment(), timeout=WAIT)
            self.assertEqual(again.returncode, 0)
        frames = list(conformance.read_capture(answers))
        wanted = [each.data for each in frames if each.kind == conformance.ANSWER]
        self.assertEqual(conformance.compare(0, wanted, wanted), [])
        self.assertEqual(len(conformance.compare(0, wanted, wanted[:-1])), 1)
        broken = wanted[:1] + [wanted[1][:-1] + b"\7"] + wanted[2:]
        self.assertEqual([each.place for each in conformance.compare(0, wanted, broken)], ["reply 2"])

    def test_a_server_that_a_command_starts_again(self):
        """Two samples, each against a server that is started again on the same port."""
        etpd, samples = support.program("etpd"), ROOT / "docs" / "samples"
        if etpd is None:
            self.skipTest("no built etpd")
        port = free_port()
        with tempfile.TemporaryDirectory() as folder:
            script, number = Path(folder, "restart"), Path(folder, "pid")
            script.write_text(
                f'#!/bin/sh\nif [ -f {number} ]; then old=$(cat {number}); kill -9 $old; while ls /proc/$old/fd/0; do sleep 0.02; done > /dev/null 2>&1; fi\n'
                f'{etpd} "$1" 127.0.0.1:{port} < /dev/null > /dev/null 2>&1 &\necho $! > {number}\n')
            script.chmod(0o755)
            try:
                words = ["conformance", f"ws://127.0.0.1:{port}/", samples / "one_put.cap", samples / "full_journal.cap", "--restart", script]
                self.assertEqual(run(*words, "--timeout", WAIT), "one_put: as recorded\nfull_journal: as recorded\n")
            finally:
                os.kill(int(number.read_text()), signal.SIGKILL)
            script.write_text("#!/bin/sh\nexit 3\n")
            self.assertIn("ended with status 3", run(*words, status=10))

    def test_a_program_that_says_nothing(self):
        with tempfile.TemporaryDirectory() as folder:
            silent = Path(folder, "etpd")
            silent.write_text("#!/bin/sh\nexec sleep 1000\n")
            silent.chmod(0o755)
            words = ["conformance", "--etpd", silent, "--timeout", "0.5", ROOT / "docs" / "samples" / "one_put.cap"]
            self.assertIn("the server does not start", run(*words, status=10))

    def test_captures_that_are_none(self):
        from colmjurr import ValueRefused, conformance

        for data in (b"", b"ETPCAP02", b"ETPCAP01\1", b"ETPCAP01\5" + bytes(16), b"ETPCAP01\1" + bytes(12) + b"\0\0\0\1"):
            with self.assertRaises(ValueRefused):
                list(conformance.read_capture(data))


class Exporting(unittest.TestCase):
    def get(self, path):
        import urllib.error
        import urllib.request

        try:
            with urllib.request.urlopen(f"http://127.0.0.1:{self.port}{path}", timeout=WAIT) as answer:
                return answer.status, answer.read().decode()
        except urllib.error.HTTPError as error:
            return error.code, error.read().decode()

    def wait_for(self, path, wanted):
        end = time.monotonic() + WAIT
        while True:
            status, text = self.get(path)
            if wanted(status, text):
                return text
            self.assertLess(time.monotonic(), end, text)
            time.sleep(0.05)

    def begin(self, url, *words):
        process = begin_command("exporter", url, "--listen", "127.0.0.1:0", "--every", "0.1", "--timeout", str(WAIT), "--ask-timeout", str(WAIT), *words)
        self.addCleanup(process.stdin.close)
        self.addCleanup(process.stdout.close)
        self.addCleanup(process.stderr.close)
        self.addCleanup(process.wait)
        self.addCleanup(process.kill)
        self.port = int(re.search(r"(\d+)\s*$", process.stderr.readline())[1])
        return process

    def test_a_server_that_goes_and_comes(self):
        server = support.start_server()
        port = server.port
        with tempfile.TemporaryDirectory() as folder:
            path = Path(folder, "server.toml")
            path.write_text(support.configuration())
            made = json.loads(run("catalog", path))
            self.assertEqual([each["uri"] for each in made["channels"]], [each["uri"] for each in CHANNELS])
            listing = Path(folder, "catalog.json")
            listing.write_text(json.dumps(made))
            self.begin(server.url, "--catalog", listing)
        self.wait_for("/health", lambda status, text: status == 200)
        with colmjurr.connect(server.url, ask_timeout=WAIT, timeout=WAIT) as store:
            store.channel(channel_uri(0)).load([2_000_000, 5_000_000, 6_000_000], [1.0, 2.0, 3.0])
            store.channel(channel_uri(0)).replace(5_500_000, 6_000_000)
            store.channel(channel_uri(1)).load([7_000_000], [1])
            store.channel(channel_uri(1)).truncate(0)
        line = f'{{channel="c0",uri="{channel_uri(0)}"}}'
        other = f'{{channel="c1",uri="{channel_uri(1)}"}}'
        self.wait_for("/metrics", lambda status, text: f"etp_channel_replacements_total{line} 1" in text and f"etp_channel_points_total{other} 1" in text)
        # the newest points were removed, so it is an older one, or none
        text = self.wait_for("/metrics", lambda status, text: f"etp_channel_last_index_seconds{line} 5.0" in text and f"etp_channel_last_index_seconds{other}" not in text)
        for wanted in ("etp_up 1", f"etp_channel_points_total{line} 3", "etp_reconnects_total 0"):
            self.assertIn(wanted + "\n", text)
        self.check(text)
        self.assertEqual(self.get("/none")[0], 404)
        server.close()
        text = self.wait_for("/metrics", lambda status, text: "etp_up 0\n" in text)
        self.assertEqual(self.get("/health")[0], 503)
        self.check(text)
        again = support.start_server(port=port)
        self.addCleanup(again.close)
        self.wait_for("/health", lambda status, text: status == 200)
        text = self.get("/metrics")[1]
        self.assertIn("etp_up 1\n", text)
        self.assertIn("etp_reconnects_total 1\n", text)
        with colmjurr.connect(again.url, ask_timeout=WAIT, timeout=WAIT) as store:
            store.channel(channel_uri(0)).load([9_000_000], [1.0])
        self.wait_for("/metrics", lambda status, text: f"etp_channel_last_index_seconds{line} 9.0" in text)

    def check(self, text):
        import shutil

        if not shutil.which("promtool"):
            print("promtool is not there: the metrics are not checked by it")
            return
        done = subprocess.run(["promtool", "check", "metrics"], input=text, capture_output=True, text=True, timeout=WAIT)
        self.assertEqual((done.returncode, done.stdout + done.stderr), (0, ""))

    def test_the_alerts(self):
        import shutil

        if not shutil.which("promtool"):
            self.skipTest("promtool is not there")
        folder = HERE.parent / "examples"
        done = subprocess.run(["promtool", "check", "rules", str(folder / "alerts.yml")], capture_output=True, text=True, timeout=WAIT)
        self.assertEqual(done.returncode, 0, done.stdout + done.stderr)
        done = subprocess.run(["promtool", "test", "rules", str(HERE / "alerts_test.yml")], capture_output=True, text=True, timeout=WAIT)
        self.assertEqual(done.returncode, 0, done.stdout + done.stderr)

    def test_a_hostile_server_and_hostile_clients(self):
        import socket

        import outside_server

        async def serve(reader, writer):
            await outside_server.shake_hands(reader, writer)
            writer.write(outside_server.server_frame(2, b"\xff" * 20) * 10)
            await reader.read()

        thread = outside_server.LoopThread(serve)
        self.addCleanup(thread.close)
        process = self.begin(thread.url)
        self.wait_for("/health", lambda status, text: status == 503 and "number" in text)
        for data in (b"\r\n\r\n", b"POST / HTTP/1.1\r\n\r\n", b"x" * 100_000, b"GET /\xff HTTP/1.1\r\n\r\n"):
            with socket.create_connection(("127.0.0.1", self.port)) as link:
                try:
                    link.sendall(data)
                    link.shutdown(socket.SHUT_WR)
                    while link.recv(1000):
                        pass
                except OSError:
                    pass
        self.assertIn("etp_up 0\n", self.get("/metrics")[1])
        self.assertIsNone(process.poll())


if __name__ == "__main__":
    unittest.main()
