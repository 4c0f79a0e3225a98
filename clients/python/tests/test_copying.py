"""Copies of a store: whole, interrupted and continued, and into a store that has something else."""
import asyncio
import tempfile
import unittest
import unittest.mock
from pathlib import Path

import support
from support import CHANNELS, channel_uri, well_uri
import colmjurr
from colmjurr import copying
from test_cli import run
from test_links import Proxy

try:
    import numpy
except ImportError:
    numpy = None


class Copies(unittest.TestCase):
    def setUp(self):
        self.servers = [support.start_server() for _ in range(2)]
        for server in self.servers:
            self.addCleanup(server.close)
        self.source, self.target = (colmjurr.connect(server.url, ask_timeout=120 * support.PATIENCE) for server in self.servers)
        self.addCleanup(self.source.close)
        self.addCleanup(self.target.close)
        folder = tempfile.TemporaryDirectory()
        self.addCleanup(folder.cleanup)
        self.folder = Path(folder.name)
        (self.folder / "server.toml").write_text(support.configuration())
        (self.folder / "objects").write_text(f"# what is copied\n{well_uri(1, 'w')}\ta\tb\n{well_uri(2)}\n")

    def copy(self, status=0):
        return run(
            "copy", self.servers[0].url, self.servers[1].url, "--catalog", self.folder / "server.toml", "--objects", self.folder / "objects",
            "--ask-timeout", 120 * support.PATIENCE, status=status)

    @unittest.skipIf(numpy is None, "numpy is not there")
    def test_copies(self):
        source, target = self.source, self.target
        source.put_space("w", {"k": 1})
        source.put(well_uri(1, "w"), b"<Well/>", name="n", custom={"c": "x"}, changed=5)
        source.put(well_uri(2), b"{}", format="json")
        source.array(well_uri(1, "w"), "a").write(numpy.array([[1.5, numpy.nan]]), custom={"u": "m"})
        source.array(well_uri(1, "w"), "b").make((3, 2), "int16", preferred=(1, 2))
        points = {"double": [1.5, None, float("nan")], "string": ["a", None, "b"], "boolean": [True, False, None]}
        for each in CHANNELS:
            if each["kind"] in points:
                source.channel(each["uri"]).load([10, 20, 30], points[each["kind"]])
        lines = self.copy()
        self.assertIn(f"channel {channel_uri(0)}: 3 points, 0 already there", lines)
        self.assertEqual(target.get(well_uri(1, "w"))[:6], source.get(well_uri(1, "w"))[:6])
        self.assertEqual(target.get(well_uri(2), "json").data, b"{}")
        self.assertEqual({each.path: each.custom for each in target.spaces()}, {"": {}, "w": {"k": 1}})
        numpy.testing.assert_array_equal(target.array(well_uri(1, "w"), "a")[:], [[1.5, numpy.nan]])
        self.assertEqual(target.array(well_uri(1, "w"), "b").info[:3], ((3, 2), (1, 2), "int16"))
        for number in (0, 2, 3):
            self.assertEqual(repr(list(target.channel(channel_uri(number)).range())), repr(list(source.channel(channel_uri(number)).range())))
        source.channel(channel_uri(0)).load([40], [4.0])
        lines = self.copy()
        self.assertIn(f"channel {channel_uri(0)}: 1 points, 3 already there", lines)
        self.assertIn(f"object {well_uri(2)}: already there", lines)
        source.channel(channel_uri(0)).replace(10, 10, [10], [9.0])
        self.assertIn("are not the first points", self.copy(status=17))

    def test_a_copy_that_is_broken_off_is_continued(self):
        """Each run's links are cut in the middle of a message, after some hundred. The runs together copy all, and the last one finds what the
        others have brought."""
        source, target = self.source, self.target
        source.put_space("w")
        objects = [well_uri(number, "w") for number in range(1, 61)]
        for uri in objects:
            source.put(uri, uri.encode())
        for number in (0, 2):
            values = [f"{place}" if number else place / 7 for place in range(4_000)]
            source.channel(channel_uri(number)).load(list(range(4_000)), values)
        runs, lines = 0, []

        async def copied(url):
            how = {"ask_timeout": 120 * support.PATIENCE, "timeout": 60 * support.PATIENCE}
            async with colmjurr.aio.connect(self.servers[0].url, **how) as one, colmjurr.aio.connect(url, **how, patience=0.0) as other:
                named = [copying.Named(uri, []) for uri in objects]
                await copying.copy(one, other, [channel_uri(0), channel_uri(2)], named, lines.append, lambda done, of: steps.append((done, of)))

        steps = []
        with unittest.mock.patch("colmjurr.loading.BULK", 200):
            while True:
                runs += 1
                self.assertLess(runs, 30)
                proxy = Proxy(self.servers[1].port, every=150 + 30 * runs, in_the_middle=True)
                self.addCleanup(proxy.close)
                try:
                    asyncio.run(copied(proxy.url))
                    break
                except colmjurr.LinkError:
                    pass
        self.assertGreater(runs, 2)
        self.assertTrue(any("already there" in line for line in lines))
        self.assertEqual(steps[-1], (4_000, 4_000))
        for uri in objects:
            self.assertEqual(target.get(uri).data, uri.encode())
        for number in (0, 2):
            self.assertEqual(list(target.channel(channel_uri(number)).range()), list(source.channel(channel_uri(number)).range()))

    def test_what_is_not_there(self):
        self.assertIn("refused 11", self.copy(status=9))


if __name__ == "__main__":
    unittest.main()
