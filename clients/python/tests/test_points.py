"""Columns of points: moments, tables, CSV, nulls, and what they are without numpy."""
import csv
import datetime
import io
import os
import pathlib
import subprocess
import sys
import tempfile
import unittest

from support import HERE
from colmjurr import Bar, ValueRefused, index_of, object_uri, space_uri, time_of
from colmjurr.points import Points, columns_of, moment_text
from colmjurr.uris import read_object, read_space

SECOND = 1_000_000
NOON = 1_796_126_400 * SECOND


class Moments(unittest.TestCase):
    def test_moments(self):
        zone = datetime.timezone(datetime.timedelta(hours=2))
        for moment, index in (
                (5, 5), (-(1 << 62), -(1 << 62)), ("2026-12-01T12:00:00Z", NOON), ("2026-12-01T14:00+02:00", NOON), ("2026-12-01 12:00", NOON),
                ("2026-12-01", NOON - 12 * 3600 * SECOND), (datetime.datetime(2026, 12, 1, 12), NOON), (datetime.datetime(2026, 12, 1, 14, tzinfo=zone), NOON),
                (datetime.datetime(1969, 12, 31, 23, 59, 59, 999_999), -1), (datetime.datetime(1, 1, 1), -62_135_596_800 * SECOND)):
            self.assertEqual(index_of(moment), index, moment)
        for moment in ("noon", "", None, 1.5, True, b"5", [5]):
            with self.assertRaises(ValueRefused):
                index_of(moment)

    def test_moments_of_numpy_and_pandas(self):
        try:
            import numpy
            import pandas
        except ImportError as error:
            self.skipTest(f"{error.name} is not there")
        for moment in (numpy.int64(NOON), numpy.datetime64("2026-12-01T12:00"), pandas.Timestamp("2026-12-01T12:00"), pandas.Timestamp("2026-12-01T13:00+01:00")):
            self.assertEqual(index_of(moment), NOON)
        for moment in (numpy.datetime64("NaT"), pandas.NaT):
            with self.assertRaises(ValueRefused):
                index_of(moment)

    def test_texts(self):
        self.assertEqual(moment_text(NOON), "2026-12-01T12:00:00Z")
        self.assertEqual(moment_text(NOON + 1), "2026-12-01T12:00:00.000001Z")
        self.assertEqual(moment_text(1 << 62), str(1 << 62))
        self.assertEqual(time_of(NOON), datetime.datetime(2026, 12, 1, 12, tzinfo=datetime.timezone.utc))
        self.assertEqual(index_of(time_of(-1)), -1)
        with self.assertRaises(ValueRefused):
            time_of(1 << 62)


class Bars(unittest.TestCase):
    def test_a_bar(self):
        out = io.StringIO()
        with Bar("range", "bytes", stream=out, is_shown=True) as bar:
            bar(500)
            bar(1000, 4000)
            bar.clear()
        lines = out.getvalue().split("\r")
        self.assertTrue(lines[1].startswith("range: 500 bytes, "), lines)
        self.assertEqual(lines[2], "\x1b[K")
        self.assertTrue(lines[3].startswith("range: [#######.......................]  25 %, "), lines)
        self.assertTrue(lines[3].endswith("\n"))
        hidden = io.StringIO()
        with Bar("range", stream=hidden) as bar:
            bar(1)
            bar.clear()
        self.assertEqual(hidden.getvalue(), "")


class Uris(unittest.TestCase):
    def test_uris(self):
        number = "0c2d5fe6-3e8a-4d2c-9a55-1f0a5c8c4a10"
        self.assertEqual(object_uri("witsml21.Well", number.upper(), "it's"), f"eml:///dataspace('it''s')/witsml21.Well({number})")
        self.assertEqual(read_object(f"eml:///dataspace('it''s')/witsml21.Well({number})")[:2], ("it's", "witsml21.Well"))
        self.assertEqual((space_uri(), space_uri("a'b")), ("eml:///", "eml:///dataspace('a''b')"))
        self.assertEqual((read_space("eml:///"), read_space("eml:///dataspace('a''b')"), read_space("eml:///dataspace('a'b')")), ("", "a'b", None))
        for kind, name in (("Well", number), ("witsml21.Well", "x"), ("witsml21.", number), ("witsml2.Well", number)):
            with self.assertRaises(ValueRefused):
                object_uri(kind, name)


def points(kind, *rows):
    branch = {"double": 5, "long": 3, "string": 6, "boolean": 1, "bytes": 17}[kind]
    return Points([columns_of(0, [(index, 0 if value is None else branch, value) for index, value in rows])], "c", "m", kind)


class Tables(unittest.TestCase):
    def test_csv(self):
        file = io.StringIO()
        count = points("double", (NOON, 1.5), (NOON + SECOND, None), (NOON + 2 * SECOND, -0.0)).to_csv(file)
        self.assertEqual((count, file.getvalue()), (3, "time,c\n2026-12-01T12:00:00Z,1.5\n2026-12-01T12:00:01Z,\n2026-12-01T12:00:02Z,-0.0\n"))
        file = io.StringIO()
        points("string", (1, 'a,"b"'), (2, "c\nd")).to_csv(file, time=False)
        self.assertEqual(file.getvalue(), 'index_us,c\n1,"a,""b"""\n2,"c\nd"\n')
        file = io.StringIO()
        texts = ["a\rb", "c\r", "\r\n", "", '"', ",", "é"]
        points("string", *enumerate(texts)).to_csv(file, time=False)
        self.assertEqual([row[1] for row in csv.reader(io.StringIO(file.getvalue(), newline=""))][1:], texts)
        with tempfile.TemporaryDirectory() as folder:
            path = pathlib.Path(folder, "points.csv")
            self.assertEqual(points("bytes", (1, b"\0\xff")).to_csv(path, time=False), 1)
            self.assertEqual(path.read_bytes(), b"index_us,c\n1,00ff\n")
            self.assertEqual(points("long", (1, 5)).to_csv(str(path)), 1)

    def test_pandas(self):
        try:
            import pandas
        except ImportError:
            self.skipTest("pandas is not there")
        for kind, value, dtype in (("double", 1.5, "float64"), ("long", 5, "Int64"), ("boolean", True, "boolean"), ("string", "x", "object"), ("bytes", b"x", "object")):
            frame = points(kind, (NOON, value), (NOON + 1, None)).to_pandas()
            self.assertEqual((str(frame["c"].dtype), frame["c"].iloc[0], frame["c"].isna().tolist()), (dtype, value, [False, True]))
            self.assertEqual((str(frame.index.tz), frame.index.name, frame.attrs), ("UTC", "time", {"uom": "m", "kind": kind}))
            self.assertEqual(frame.index[1] - frame.index[0], pandas.Timedelta(microseconds=1))
        self.assertEqual(str(points("long", (1, 5)).to_pandas()["c"].dtype), "int64")
        self.assertEqual(len(points("double").to_pandas()), 0)
        far = points("double", (1 << 62, 1.0))
        with self.assertRaises(ValueRefused):
            far.to_pandas()
        self.assertEqual(far.to_pandas(time=False).index.tolist(), [1 << 62])


class WithoutNumpy(unittest.TestCase):
    """The package alone, as where numpy and pandas are not installed."""

    def test_codec_and_store(self):
        hide = "import sys; sys.modules.update(numpy=None, pandas=None, matplotlib=None); sys.argv = sys.argv[:1] + sys.argv[1:]; import unittest; unittest.main(module=None)"
        done = subprocess.run(
            [sys.executable, "-W", "ignore", "-c", hide, "test_channel_data", "test_store.Kinds", "test_store.Channels", "test_store.Loading", "test_points.Tables"],
            cwd=HERE, capture_output=True, text=True, env=os.environ, timeout=900)
        self.assertEqual(done.returncode, 0, done.stderr[-3000:])
        self.assertIn("skipped", done.stderr)


if __name__ == "__main__":
    unittest.main()
