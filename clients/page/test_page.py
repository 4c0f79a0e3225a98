#!/usr/bin/env python3
"""The tests of the log page, in a headless browser.

    python3 test_page.py [-v] [TEST ...]

The page is opened from its file. It follows a small server of these tests' own, and where the environment's ETPD names a built server,
that one too. What the page has to show comes from the server's store, from outside/wire.py, or from arithmetic in the test. With
PICTURE in the environment the picture of the page is written to that path.
"""
import asyncio
import json
import logging
import math
import os
import random
import re
import socket
import struct
import sys
import time
import unittest
import urllib.parse
import uuid
from pathlib import Path

FOLDER = Path(__file__).resolve().parent
sys.path[:0] = [str(FOLDER / "tests"), str((FOLDER.parent.parent / "outside/wire.py").parent)]

import browser  # noqa: E402
import stub  # noqa: E402
import web_socket  # noqa: E402
import wire  # noqa: E402
from picture import Picture  # noqa: E402
from rig import Etpd, Proxy  # noqa: E402
from stub import Stub, interval, item, long_index, message  # noqa: E402

SECOND = 1_000_000
ETPD = os.environ.get("ETPD")
MILLION = 1_000_000
# How long a frame with a million points may take, in milliseconds; without a number it is told alone. bench/measure_clients gives one.
FRAME = float(os.environ.get("FRAME") or "inf")
HOSTILE = '<img src=x onerror="window.harmed=1">\u202e<script>window.harmed=1</script>'
COPY = "(() => { const c = app.link.channels[%d].column; return Array.from({length: c.count}, (_, i) => [c.times[i], String(c.valueAt(i))]); })()"

# Keeps every line of what happened in `told`, while the page itself shows the last 50.
ALL_TOLD = """
  const list = document.getElementById('events'), told = Array.from(list.children, it => it.textContent).reverse();
  new MutationObserver(seen => told.push(...seen.flatMap(it => Array.from(it.addedNodes, node => node.textContent)))).observe(list, {childList: true});
"""


def is_blue(color):
    """Whether a pixel is of the first track's curve, or of its edge; the grid is grey."""
    red, _, blue = color
    return blue - red > 50


def uri(number):
    return f"eml:///witsml21.Channel({uuid.UUID(int=0x100 + number)})"


def specs(*kinds):
    return [(uri(number), f"channel {number}", kind, "m") for number, kind in enumerate(kinds)]


def javascript(value):
    """The text that JavaScript's `String` makes of a value."""
    if isinstance(value, bool):
        return str(int(value))
    if isinstance(value, bytes):
        return value.hex()
    if isinstance(value, float):
        return str(int(value)) if value == int(value) else repr(value)
    return str(value)


def address(url, uris, **words):
    pairs = [("url", url), *(("channel", each) for each in uris), *words.items()]
    return f"{(FOLDER / 'log.html').as_uri()}?{urllib.parse.urlencode(pairs)}"


class Case(unittest.IsolatedAsyncioTestCase):
    async def asyncSetUp(self):
        asyncio.get_running_loop().set_debug(False)
        self.browser = await browser.Browser().connect()
        self.opened, self.helpers = [], []

    async def asyncTearDown(self):
        for page in self.opened:
            self.assertEqual(page.errors, self.allowed(page), "errors in the console")
        await self.browser.disconnect()
        for helper in reversed(self.helpers):
            await helper.stop()

    def allowed(self, page):
        """A link that breaks is an error that the browser itself writes."""
        return [error for error in page.errors if error.startswith("network: WebSocket connection to") or "ERR_CONNECTION" in error]

    async def helper(self, one):
        self.helpers.append(one)
        return await one.start()

    async def open(self, url, uris, width=900, height=700, **words):
        page = await self.browser.open(address(url, uris, **words), width, height)
        self.opened.append(page)
        return page

    async def copies(self, page, number):
        return [tuple(point) for point in await page.evaluate(COPY % number)]

    async def is_copy(self, page, store, numbers):
        """Waits until the page's copies are the server's points."""
        for number in numbers:
            wanted = [(at, javascript(value)) for at, value in await store.points(number)]
            end = time.monotonic() + browser.PATIENCE
            while (held := await self.copies(page, number)) != wanted and time.monotonic() < end:
                await asyncio.sleep(0.05)
            self.assertEqual(held, wanted, f"channel {number}")

    async def draws_in_a_frame(self, page, words, changed, told):
        """Draws some frames in a view, each after a change of the first track's points since a time, and tells how long the middle one takes.

        It is the whole of a frame, with the pixels that it ends in: reading one of them waits for the drawing. What the processor took of it
        depends less on what else the machine does."""
        await page.evaluate(words)
        draw = """(async () => {
          await new Promise(next => requestAnimationFrame(next));
          const {column} = app.tracks[0].channel, begun = performance.now();
          column.note(column.%s);
          app.draw();
          for (const canvas of [app.axis, ...app.tracks.map(it => it.canvas)]) canvas.getContext('2d').getImageData(0, 0, 1, 1);
          return performance.now() - begun;
        })()""" % changed
        whole, busy = [], []
        for _ in range(15):
            before = await page.busy_time()
            whole.append(await page.evaluate(draw))
            busy.append(await page.busy_time() - before)
        middle, processor = sorted(whole)[7], sorted(busy)
        print(f"  a million points, {told}, {words!r}, from {changed} on: {middle:.1f} ms, of the processor {processor[0]:.1f} to {processor[-1]:.1f} ms",
              file=sys.stderr)
        self.assertLess(middle, FRAME, words)

    async def followed(self, page, count):
        await page.until(f"app.link.channels.filter(it => it.isFollowed).length === {count}")


class Followed:
    """The cases that hold of every server. `store` makes one with these channels."""

    async def test_follows_loads_replacements_and_truncations(self):
        kinds = ["double", "long", "string", "float", "boolean", "int", "bytes"]
        store = await self.store(specs(*kinds))
        values = {"double": lambda k: k / 8, "long": lambda k: (1 << 61) + k, "string": lambda k: f"sand {k}", "float": lambda k: k / 4,
                  "boolean": lambda k: k % 2 == 0, "int": lambda k: 7 - k, "bytes": lambda k: bytes([k % 256, 7])}
        chance, held = random.Random(1), {number: [] for number in range(len(kinds))}
        page = await self.open(store.url, [each[0] for each in store.specs])
        await self.followed(page, len(kinds))
        for step in range(200):
            number = chance.randrange(len(kinds))
            value, last = values[kinds[number]], held[number][-1] if held[number] else 0
            what = chance.random()
            if what < 0.7 or not held[number]:
                added = [(last + 1 + 2 * k, value(step + k)) for k in range(chance.randrange(1, 600))]
                await store.load(number, added)
                held[number] += [at for at, _ in added]
            elif what < 0.9:
                begin, end = sorted(chance.sample(range(1, last + 1), 2)) if last > 1 else (1, 1)
                inside = sorted(chance.sample(range(begin, end + 1), min(end - begin + 1, chance.randrange(0, 300))))
                await store.replace(number, begin, end, [(at, value(at)) for at in inside])
                held[number] = sorted({at for at in held[number] if not begin <= at <= end} | set(inside))
            else:
                end = chance.randrange(last // 2, last + 1)
                await store.truncate(number, end)
                held[number] = [at for at in held[number] if at <= end]
        await self.is_copy(page, store, range(len(kinds)))

    async def test_comes_back_with_the_right_copy(self):
        store = await self.store(specs("double", "double"))
        proxy = await self.helper(Proxy(store.url))
        await store.load(0, [(at, at / 2) for at in range(1, 500)])
        page = await self.open(proxy.url, [each[0] for each in store.specs])
        await self.followed(page, 2)
        await page.evaluate("app.link.delays = [300]")
        for round in range(6):
            told = await page.evaluate("app.events.length")
            proxy.cut()
            await page.until(f"app.events.slice({told}).some(it => it.includes('; next try in '))")
            await store.load(0, [(1000 * (round + 1) + at, at / 4) for at in range(400)])
            await store.replace(0, 100 + round, 300, [(200, -1.5 - round)])
            await store.truncate(0, 1000 * (round + 1) + 350)
            await store.load(1, [(5 * round + 1, 1.5)])
            await self.followed(page, 2)
            await store.load(0, [(1000 * (round + 1) + 900, 7.25)])
            await self.is_copy(page, store, [0, 1])

    async def test_tells_what_the_server_lacks(self):
        store = await self.store(specs("double"))
        page = await self.open(store.url, [store.specs[0][0], uri(77)])
        await self.followed(page, 1)
        await page.until("app.tracks[1].note.textContent === 'not found (11)'")
        self.assertEqual(await page.evaluate("app.tracks[0].note.textContent"), "")

    async def test_takes_the_latest_points_of_a_channel_that_has_too_many(self):
        store = await self.store(specs("double"))
        self.limit_to_a_million(store)
        await store.load(0, [(at, float(at % 97)) for at in range(1, 1_048_576 + 2)])
        page = await self.open(store.url, [store.specs[0][0]])
        await page.until("app.link.channels[0].column.count === 500000")
        await page.until("app.tracks[0].note.textContent.startsWith('the latest 500,000 points')")
        self.assertEqual(await page.evaluate("app.link.channels[0].column.times[0]"), 1_048_577 - 499_999)
        await store.load(0, [(2_000_000, 3.5)])
        await page.until("app.link.channels[0].column.count === 500001")

    def limit_to_a_million(self, store):
        pass

    async def test_draws_a_million_points_in_a_frame(self):
        store = await self.store(specs("double"))
        await store.load(0, [(at * SECOND, 50 + 40 * math.sin(at / 5000) + at % 7) for at in range(1, MILLION + 1)])
        page = await self.open(store.url, [store.specs[0][0]], span=0)
        begun = time.monotonic()
        await page.until(f"app.link.channels[0].column.count === {MILLION}")
        held = time.monotonic() - begun
        # Everything, an hour, and everything after a change of the first point.
        for words, changed in (("app.view.all = true", "lastTime"), ("app.view.all = false; app.view.span = 3600e6", "lastTime"),
                               ("app.view.all = true", "times[0]")):
            await self.draws_in_a_frame(page, words, changed, f"{type(self).__name__}, held after {held:.1f} s")


class WithStub(Followed, Case):
    async def store(self, channels):
        store = await self.helper(Stub(channels))
        store.specs = channels
        return store


@unittest.skipUnless(ETPD, "ETPD names no built server")
class WithEtpd(Followed, Case):
    async def store(self, channels):
        return await self.helper(Etpd(ETPD, channels))

    async def open(self, *words, **more):
        page = await super().open(*words, **more)
        if browser.TIMES > 1:
            # A server with run-time checks may take longer for a million points than the page waits for an answer.
            await page.evaluate("Link.prototype.keep = () => {}")
        return page

    async def test_begins_at_a_moment(self):
        store = await self.store(specs("double"))
        now = int(time.time())
        await store.load(0, [((now - 600 + at) * SECOND, at / 2) for at in range(600)])
        page = await self.open(store.url, [store.specs[0][0]], **{"from": "-300"})
        await self.followed(page, 1)
        await page.until("app.link.channels[0].column.count > 200")
        first = await page.evaluate("app.link.channels[0].column.times[0]")
        self.assertTrue(now - 300 <= first / SECOND <= time.time() - 299, first)
        # The newest point is of the second before `now`. The page says how old it is in whole seconds, once a second.
        before = time.time() - (now - 1)
        await page.until(f"parseInt(document.getElementById('behind').textContent) >= {int(before)}")
        told = await seconds_behind(page)
        behind = time.time() - (now - 1)
        self.assertLessEqual(told, behind + 0.5)


async def seconds_behind(page):
    """How old the newest point is, as the page says below the tracks."""
    words = await page.evaluate("document.getElementById('behind').textContent")
    found = re.fullmatch(r"(\d+) s behind", words)
    assert found, words
    return int(found[1])


class Drawn(Case):
    """What is drawn, and what the page says."""

    async def ramp(self, points, **words):
        store = await self.helper(Stub(specs("double")))
        await store.load(0, points)
        page = await self.open(store.url, [uri(0)], **{"scale": "0:100", **words})
        await page.until(f"app.link.channels[0].column.count === {len(points)}")
        await page.drawn()
        box = await page.evaluate("(() => { const b = app.tracks[0].canvas.getBoundingClientRect(); return [b.left, b.top, b.width, b.height]; })()")
        return store, page, Picture(await page.screenshot()), box

    def xs(self, picture, box, y):
        left, top, width, _ = box
        return [x - left for x in picture.columns(round(top + y), math.ceil(left), int(left + width), is_blue)]

    async def test_pixels_stand_where_the_values_say(self):
        # A value that rises from 0 to 100 in 1,000 s; 2 hundredths of the span stay free at the bottom.
        points = [(at * SECOND, at / 10) for at in range(1001)]
        _, _, picture, box = await self.ramp(points, span=1000)
        _, _, width, height = box
        for second in range(60, 1000, 47):
            y = (second - 1000 + 0.98 * 1000) / 1000 * height
            found, wanted = self.xs(picture, box, y), second / 1000 * width
            self.assertTrue(found, f"nothing is drawn at {second} s")
            self.assertLessEqual(max(abs(x - wanted) for x in found), 3, f"{second} s")

    async def test_scales_are_logarithmic_and_turned_round(self):
        # A value that goes from 0.1 to 1,000 in 1,000 s, and is ten times as much each 250 s.
        points = [(at * SECOND, 10 ** (at / 250 - 1)) for at in range(1001)]
        for scale, part in (("0.1:1000:log", lambda at: at / 1000), ("1000:0.1:log", lambda at: 1 - at / 1000),
                            ("100:0", lambda at: 1 - 10 ** (at / 250 - 1) / 100)):
            with self.subTest(scale):
                _, _, picture, box = await self.ramp(points, scale=scale, span=1000)
                _, _, width, height = box
                for second in range(60, 500, 47):
                    found, wanted = self.xs(picture, box, (second - 20) / 1000 * height), part(second) * width
                    self.assertTrue(found, f"nothing is drawn at {second} s")
                    self.assertLessEqual(min(abs(x - wanted) for x in found), 3, f"{second} s")
                    self.assertLessEqual(max(found) - min(found), 8, f"{second} s")

    async def test_a_logarithmic_scale_leaves_an_edge_at_zero_alone(self):
        # The edge 0 can't be drawn to by a logarithm: the decade of the least value that is shown is taken in its place.
        points = [(at * SECOND, 2.0 + 60 * at / 1000) for at in range(1001)]
        _, page, _, box = await self.ramp(points, scale="0:100", span=1000)
        await page.evaluate("app.tracks[0].line.click()")
        await page.drawn()
        self.assertEqual(await page.evaluate("[app.tracks[0].scale.left, app.tracks[0].scale.right]"), [1, 100])
        picture, (_, _, width, height) = Picture(await page.screenshot()), box
        for second in range(60, 1000, 47):
            found, wanted = self.xs(picture, box, (second - 20) / 1000 * height), math.log10(2 + 60 * second / 1000) / 2 * width
            self.assertLessEqual(max(abs(x - wanted) for x in found), 3, f"{second} s")

    async def test_a_spike_among_a_thousand_points_in_a_row_is_drawn(self):
        points = [(at * 1000, 100.0 if at == 250_000 else 10.0) for at in range(1, 500_001)]
        _, _, picture, box = await self.ramp(points, span=500)
        _, _, width, height = box
        row = round(0.48 * height)
        reached = max(max(self.xs(picture, box, y), default=0) for y in range(row - 2, row + 3))
        self.assertGreater(reached, width - 4)
        for y in (0.3 * height, 0.7 * height):
            self.assertLess(max(self.xs(picture, box, y)), 0.1 * width + 3)

    async def test_a_break_stays_free(self):
        points = [(at * SECOND, 50.0) for at in [*range(400), *range(600, 1001)]]
        _, _, picture, box = await self.ramp(points, span=1000)
        _, _, _, height = box
        row = lambda second: (second - 20) / 1000 * height
        self.assertEqual(self.xs(picture, box, row(500)), [])
        self.assertTrue(self.xs(picture, box, row(300)) and self.xs(picture, box, row(700)))

    async def test_depth_goes_down_the_page(self):
        # The depth goes from 1,000 to 1,100 m in 1,000 s; the curve's value is a hundredth of its depth above 1,000.
        store = await self.helper(Stub([(uri(0), "GR", "double", "gAPI"), (uri(1), "Hole depth", "double", "m")]))
        await store.load(1, [(at * SECOND, 1000 + at / 10) for at in range(0, 1001, 5)])
        await store.load(0, [(at * SECOND + 1, at / 10) for at in range(0, 1001, 5)])
        page = await self.open(store.url, [uri(0)], depth=uri(1), span=100, scale="0:100")
        await page.until("app.link.channels[0].column.count === 201")
        await page.drawn()
        box = await page.evaluate("(() => { const b = app.tracks[0].canvas.getBoundingClientRect(); return [b.left, b.top, b.width, b.height]; })()")
        picture, (_, _, width, height) = Picture(await page.screenshot()), box
        for value in range(10, 100, 9):
            found = self.xs(picture, box, (value - 2) / 100 * height)
            self.assertLessEqual(max(abs(x - value / 100 * width) for x in found), 3, f"{1000 + value} m")
        self.assertEqual(await page.evaluate("document.getElementById('unit').textContent"), "Hole depth, m")
        # A correction of the depth moves what was measured since.
        await store.replace(1, 500 * SECOND, 1000 * SECOND, [(500 * SECOND, 1200.0)])
        await page.until("app.reach()[1] === 1200")
        self.assertEqual(await page.evaluate("Array.from(app.tracks[0].channel.column.places.subarray(99, 102))"), [1049.5, 1200, 1200])

    async def test_draws_a_million_points_by_depth_in_a_frame(self):
        store = await self.helper(Stub([(uri(0), "GR", "double", "gAPI"), (uri(1), "Hole depth", "double", "m")]))
        page = await self.open(store.url, [uri(0)], depth=uri(1))
        await self.followed(page, 2)
        # Drilling that pulls back by some metres again and again.
        await page.evaluate("""{
          const [curve, depth] = app.link.channels.map(it => it.column);
          for (let k = 1; k <= %d; k++) {
            curve.append({time: k * 1e6, branch: 5, value: 50 + 40 * Math.sin(k / 5000) + k %% 7});
            depth.append({time: k * 1e6, branch: 5, value: 1000 + k / 300 + 3 * Math.sin(k / 300)});
          }
        }""" % MILLION)
        for words in ("app.view.all = true", "app.view.all = false; app.view.span = 100"):
            await self.draws_in_a_frame(page, words, "lastTime", "by depth")

    async def test_names_are_text(self):
        store = await self.helper(Stub([(uri(0), HOSTILE, "double", HOSTILE), (uri(1), "lithology", "string", "")], name=HOSTILE))
        await store.load(0, [(SECOND, 1.0)])
        await store.load(1, [(SECOND, HOSTILE)])
        page = await self.open(store.url, [uri(0), uri(1)])
        await page.until("app.link.channels.every(it => it.column.count === 1)")
        await page.drawn()
        self.assertEqual(await page.evaluate("app.tracks[0].name.textContent"), HOSTILE)
        self.assertEqual(await page.evaluate("app.tracks[1].value.textContent"), HOSTILE)
        self.assertIsNone(await page.evaluate("window.harmed"))
        self.assertEqual(await page.evaluate("document.querySelectorAll('img').length"), 0)
        self.assertEqual(await page.evaluate("document.querySelectorAll('script').length"), 1)

    async def test_tells_how_far_behind_it_is_by_the_clock_of_the_server(self):
        # The server's clock is an hour ahead of the browser's.
        store = await self.helper(Stub([(uri(0), "ROP", "double", "m/h")], ahead=3600))
        begun = time.monotonic()
        await store.load(0, [(int((store.now() - 42) * SECOND), 22.5)])
        page = await self.open(store.url, [uri(0)])
        await page.until("document.getElementById('held').textContent === '1 point held'")
        told = await seconds_behind(page)
        value, unit, age = await page.evaluate("['value', 'uom', 'age'].map(it => document.querySelector('.track .' + it).textContent)")
        self.assertEqual((value, unit), ("22.5", "m/h"))
        most = 42.5 + time.monotonic() - begun
        for seconds in (told, int(age.removesuffix(" s"))):
            self.assertTrue(42 <= seconds <= most, (seconds, most))
        begun = time.monotonic()
        await store.load(0, [(int(store.now() * SECOND), 23.25)])
        await page.until("app.tracks[0].value.textContent === '23.25'")
        self.assertLessEqual(await seconds_behind(page), 1 + time.monotonic() - begun)
        # It goes on counting while the link is broken.
        await store.stop()
        await page.until("document.getElementById('state').className === 'waiting'")
        begun = await seconds_behind(page)
        await page.until(f"parseInt(document.getElementById('behind').textContent) >= {begun + 3}")

    async def test_moves_by_wheel_drag_and_keys_and_comes_back_to_the_newest(self):
        store, page, _, (left, top, width, height) = await self.ramp([(at * SECOND, 1.0) for at in range(5000)], span=1000)
        end = "Math.round(app.view.end / 1e6)"
        self.assertEqual(await page.evaluate(end), 5019)
        mouse = lambda kind, **words: self.browser.ask("Input.dispatchMouseEvent", page.session, type=kind, x=left + 50, **words)
        await mouse("mouseWheel", y=top + 100, deltaX=0, deltaY=-height)
        await page.until(f"{end} === 4019")
        await mouse("mousePressed", y=top + 100, button="left", clickCount=1)
        await mouse("mouseMoved", y=top + 100 + height / 10, button="left")
        await mouse("mouseReleased", y=top + 100 + height / 10, button="left")
        await page.until(f"{end} === 3919")
        await page.evaluate("window.dispatchEvent(new KeyboardEvent('keydown', {key: 'PageDown'}))")
        await page.until(f"{end} === 4819")
        await store.load(0, [(5000 * SECOND, 1.0)])
        await page.until("app.link.channels[0].column.count === 5001")
        await page.drawn()
        self.assertEqual(await page.evaluate(end), 4819, "it doesn't follow where one looks back")
        await page.evaluate("document.getElementById('newest').click()")
        await page.until(f"{end} === 5020")

    async def test_the_address_keeps_what_was_changed_by_hand(self):
        store = await self.helper(Stub(specs("double", "double")))
        page = await self.open(store.url, [uri(0), uri(1)], scale="0:60", span="900")
        await self.followed(page, 2)
        await page.evaluate("""{
          const [left] = app.tracks[1].edges;
          Object.assign(left, {value: '0.2'}).onchange();
          app.tracks[1].line.click();
          document.querySelectorAll('#spans button')[2].click();
        }""")
        kept = urllib.parse.parse_qs((await page.evaluate("location.search"))[1:], keep_blank_values=True)
        self.assertEqual((kept["scale"], kept["span"], kept["channel"]), (["0:60", "0.2::log"], ["7200"], [uri(0), uri(1)]))
        await page.evaluate("location.reload()")
        await page.until("typeof app === 'object' && app.link && app.link.channels.every(it => it.isFollowed)")
        scales = await page.evaluate("[app.tracks.map(it => it.scaleText()), app.view.span]")
        self.assertEqual(scales, [["0:60", "0.2::log"], 7200e6])

    async def test_all_is_shown_where_the_span_is_zero(self):
        points = [(at * SECOND, 50.0) for at in range(0, 40_001, 10)]
        _, page, _, _ = await self.ramp(points, span=0)
        self.assertEqual(await page.evaluate("app.view.begin <= 0 && app.view.end >= 40000e6"), True)

    async def test_ends_at_this_moment_where_there_is_no_point(self):
        store = await self.helper(Stub(specs("double")))
        page = await self.open(store.url, [uri(0)])
        await self.followed(page, 1)
        end = await page.evaluate("app.draw(), app.view.end / 1e6")
        self.assertLess(abs(end - 0.02 * 1800 - time.time()), 5 * browser.TIMES)

    async def test_tells_what_is_wrong_with_the_address(self):
        store = await self.helper(Stub(specs("double")))
        cases = [
            (dict(span="long"), "span: long is not a number"), (dict(span="-5"), "span: -5 is negative"),
            (dict(scale="0:x"), "scale 1: x is not a number"), (dict(scale="0:1:lin"), "scale 1: 0:1:lin is not LEFT:RIGHT or LEFT:RIGHT:log"),
            ({"from": "3600"}, "from: 3600 is neither a date nor a number of seconds before now, as -3600"),
            ({"from": "yesterday"}, "from: yesterday is neither a date nor a number of seconds before now, as -3600"),
            (dict(span="600", scale="0:60", **{"from": "2026-12-01T06:00Z"}), ""),
        ]
        for words, told in cases:
            with self.subTest(words):
                page = await self.open(store.url, [uri(0)], **words)
                await self.followed(page, 1)
                self.assertEqual(await page.evaluate("document.getElementById('faults').innerText"), told)
        page = await self.open(store.url, [uri(0)] * 65)
        self.assertEqual(await page.evaluate("document.getElementById('faults').innerText"), "only the first 64 of 65 channels are drawn")
        self.assertEqual(await page.evaluate("app.tracks.length"), 64)

    async def test_the_axis_stays_beside_more_tracks_than_fit(self):
        kinds = ["double"] * 20
        store = await self.helper(Stub(specs(*kinds)))
        page = await self.open(store.url, [uri(number) for number in range(20)])
        await self.followed(page, 20)
        await page.wheel(500, 400, 1500, 0)
        await page.until("document.getElementById('tracks').scrollLeft > 1000")
        lefts = await page.evaluate("[app.axis.getBoundingClientRect().left, app.tracks[0].canvas.getBoundingClientRect().left < -900]")
        self.assertEqual(lefts, [0, True])
        self.assertTrue(await page.evaluate("app.view.follows"), "what goes sideways doesn't move in time")

    async def test_a_long_name_is_shown_whole(self):
        name = "Average rotary speed"
        store = await self.helper(Stub([(uri(number), name if number else "ROP", "double", "rpm") for number in range(8)]))
        page = await self.open(store.url, [uri(number) for number in range(8)], 1280, 720)
        await self.followed(page, 8)
        await page.until(f"app.tracks[7].name.textContent === {json.dumps(name)}")
        self.assertEqual(await page.evaluate("new Set(app.tracks.map(it => it.value.getBoundingClientRect().bottom)).size"), 1)
        self.assertTrue(await page.evaluate("app.tracks.every(({name: it}) => it.scrollHeight <= it.clientHeight + 1 && it.scrollWidth <= it.clientWidth)"))


class Hostile(Case):
    """A server that says what it should not."""

    async def refused(self, say, told):
        """Each session that is opened is sent what `say` sends; the page has to tell it."""
        store = await self.helper(Stub(specs("double")))
        store.after_open = say
        page = await self.open(store.url, [uri(0)])
        await page.until(f"app.events.some(it => it.includes({json.dumps('message refused: ' + told + ';')}))")

    async def test_200_broken_messages_are_told(self):
        wholes = [message(*each) for each in whole_messages()]
        chance, broken = random.Random(7), []
        while len(broken) < 200:
            data = bytearray(chance.choice(wholes))
            for _ in range(chance.randrange(1, 4)):
                data[chance.randrange(len(data))] = chance.randrange(256)
            data = bytes(data[:chance.randrange(len(data) + 1)] if chance.random() < 0.3 else data)
            if has_table(data) and (told := fault_of(data)):
                broken.append((data, told))
        left = (data for data, _ in broken)
        store = await self.helper(Stub(specs("double")))
        store.after_open = lambda session: None if (data := next(left, None)) is None else session.write(data)
        page = await self.open(store.url, [uri(0)])
        await page.evaluate(ALL_TOLD + "app.link.delays = [1]")
        await page.until("told.filter(it => it.includes('message refused')).length >= 200")
        await self.followed(page, 1)
        events = [each.split(" ", 1)[1] for each in await page.evaluate("told") if "message refused: " in each]
        self.assertEqual([each.removeprefix("message refused: ").rsplit(";", 1)[0] for each in events], [told for _, told in broken])

    async def test_refuses_what_may_not_come(self):
        point = lambda *each: item(0, "double", *each)
        cases = [
            (lambda it: it.write(message(0, 9, 0, 1, dict(currentDateTime=0))), "the id 1 comes after 1"),
            (lambda it: it.write(b"text", 1), "a text message"),
            (lambda it: it.say(21, 4, 0, dict(data=[point(1, 1.0)])), "points of the channel 0, which is not subscribed"),
            (lambda it: it.say(21, 12, 99, dict(success={})), "SubscribeChannelsResponse was not asked for"),
            (lambda it: (it.say(21, 6, 0, dict(changeTime=0, channelIds=[], changedInterval=interval(0, 9), data=[]), False),
                         it.say(21, 4, 0, dict(data=[]))), "ChannelData amid the parts of RangeReplaced"),
            (lambda it: it.say(21, 6, 0, dict(changeTime=0, channelIds=[], changedInterval=interval(0, None), data=[])), "an index that is no long"),
            (lambda it: it.say(21, 8, 0, dict(reason="gone", channelIds={"a": 5})), "the end of the channel 5, which is not subscribed"),
        ]
        for say, told in cases:
            with self.subTest(told):
                await self.refused(say, told)

    async def test_refuses_points_out_of_order(self):
        point = lambda *each: item(0, "double", *each)
        notices = [
            ([(4, dict(data=[point(5, 1.0), point(5, 2.0)]))], "the point at 5 doesn't come after the last one, at 5"),
            ([(4, dict(data=[point(1 << 53, 1.0)]))], "a time beyond 2^53, 9007199254740992, which the page can't draw"),
            ([(4, dict(data=[dict(point(1, 1.0), indexes=[])]))], "a point without one index that is a long"),
            ([(6, dict(changeTime=0, channelIds=[0], changedInterval=interval(0, 9), data=[point(10, 1.0)]))],
             "a replacement has a point at 10, outside of its interval"),
            ([(6, dict(changeTime=0, channelIds=[0], changedInterval=interval(0, 9), data=[point(5, 1.0), point(4, 1.0)]))],
             "a replacement has a point at 4 out of order"),
            ([(6, dict(changeTime=0, channelIds=[], changedInterval=interval(0, 9), data=[point(5, 1.0)]))],
             "a replacement has points of the channel 0, which it doesn't name"),
        ]
        for said, told in notices:
            with self.subTest(told):
                store = await self.helper(Stub(specs("double")))
                page = await self.open(store.url, [uri(0)])
                await self.followed(page, 1)
                for kind, value in said:
                    for session in store.sessions:
                        session.say(21, kind, 0, value)
                await page.until(f"app.events.some(it => it.includes({json.dumps('message refused: ' + told + ';')}))")

    async def test_subscribes_again_after_lagging(self):
        store = await self.helper(Stub(specs("double", "double")))
        store.specs = specs("double", "double")
        await store.load(0, [(at, at / 2) for at in range(1, 100)])
        page = await self.open(store.url, [uri(0), uri(1)])
        await self.followed(page, 2)
        for session in store.sessions:
            session.lag()
        await store.replace(0, 5, 50, [(7, 1.5)])
        await store.load(0, [(200, 2.5)])
        await self.followed(page, 2)
        await self.is_copy(page, store, [0, 1])
        self.assertEqual(store.count, 1, "the link is the same")

    async def test_a_replacement_in_parts_is_one(self):
        store = await self.helper(Stub(specs("double")))
        await store.load(0, [(at, 1.5) for at in range(1, 1000)])
        page = await self.open(store.url, [uri(0)])
        await self.followed(page, 1)
        stub.PART_ITEMS, kept = 7, stub.PART_ITEMS
        try:
            await store.replace(0, 100, 900, [(at, 2.5) for at in range(100, 900, 3)])
        finally:
            stub.PART_ITEMS = kept
        await self.is_copy(page, store, [0])

    async def test_waits_longer_after_each_failure(self):
        with socket.socket() as one:
            one.bind(("127.0.0.1", 0))
            port = one.getsockname()[1]
        page = await self.open(f"ws://127.0.0.1:{port}/", [uri(0)])
        await page.until("app.events.some(it => it.includes('next try in 8 s'))")
        waits = await page.evaluate("app.events.map(it => it.match(/; next try in (\\d+) s$/)).filter(it => it).map(it => Number(it[1]))")
        self.assertEqual(waits, [1, 2, 4, 8])
        self.assertEqual(await page.evaluate("app.link.delays"), [1000, 2000, 4000, 8000, 16000, 30000])

    async def test_says_that_a_server_goes_away(self):
        store = await self.helper(Stub(specs("double")))
        page = await self.open(store.url, [uri(0)])
        await self.followed(page, 1)
        for session in store.sessions:
            session.write((1001).to_bytes(2, "big"), web_socket.CLOSE)
        await page.until("app.events.some(it => it.includes('the server goes away (1001); next try in 1 s'))")

    async def quiet(self):
        """A page that follows a channel, whose clock moves on by hand and whose timer is stopped."""
        store = await self.helper(Stub(specs("double")))
        page = await self.open(store.url, [uri(0)])
        await self.followed(page, 1)
        await page.evaluate("{ const real = Date.now; window.ahead = 0; Date.now = () => real() + ahead; clearInterval(app.link.watch); }")
        return store, page

    async def test_keeps_a_link_that_answers_while_the_page_is_hidden(self):
        # A browser calls a hidden page's timers once a minute.
        store, page = await self.quiet()
        (session,) = store.sessions
        before = session.heard.count("Ping")
        for minute in range(1, 5):
            await page.evaluate("ahead += 60000; app.link.keep()")
            await page.until(f"app.link.heard >= app.link.pinged && app.link.heard > {minute} * 60000")
        self.assertEqual((store.count, session.heard.count("Ping") - before, await page.evaluate("app.link.isOpen")), (1, 4, True))

    async def test_gives_up_a_link_that_answers_no_more(self):
        store, page = await self.quiet()
        (session,) = store.sessions
        session.Ping = lambda number, value: None
        for seconds, told in ((16, False), (59, False), (2, True)):
            await page.evaluate(f"ahead += {seconds * 1000}; app.link.keep()")
            self.assertEqual(await page.evaluate("app.events.some(it => it.includes(' no answer for 60 s; next try in 1 s'))"), told, seconds)
        await self.followed(page, 1)
        self.assertEqual(store.count, 2)

    async def test_gives_up_a_server_that_says_nothing(self):
        async def take(reader, writer):
            await reader.read()
            writer.close()

        silent = await asyncio.start_server(take, "127.0.0.1", 0)
        page = await self.open(f"ws://127.0.0.1:{silent.sockets[0].getsockname()[1]}/", [uri(0)])
        await page.until("app.events.some(it => it.includes('no session within 10 s;'))")
        silent.close()


class Read(Case):
    """The page's reader beside the one from outside."""

    async def test_reads_as_the_reader_from_outside(self):
        page = await self.browser.open((FOLDER / "log.html").as_uri())
        chance, cases = random.Random(3), []
        for each in whole_messages():
            protocol, kind, correlation, number, value = each
            header = dict(protocol=protocol, messageType=kind, correlationId=correlation, messageId=number, messageFlags=2)
            loose = wire.write_message(header, wire.BODIES[protocol, kind, "S"], value, loose=True)
            whole = message(*each)
            cases += [whole, loose, whole + b"\0", *(data[:at] for data in (whole, loose) for at in range(0, len(data), 1 + len(data) // 150))]
            for _ in range(200):
                data = bytearray(chance.choice([whole, loose]))
                data[chance.randrange(len(data))] = chance.choice([0, 1, 2, 127, 128, 255, chance.randrange(256)])
                cases.append(bytes(data))
        words = [data.hex() for data in cases if has_table(data)]
        told = await page.evaluate("""(list => list.map(hex => {
          const bytes = new Uint8Array(hex.length / 2).map((_, at) => parseInt(hex.substr(2 * at, 2), 16));
          try { readMessage(bytes); return ''; } catch (error) { return error instanceof Fault ? error.message : 'uncaught ' + error; }
        }))(%s)""" % json.dumps(words))
        self.assertGreater(len(words), 3000)
        self.assertEqual([(hex, said) for hex, said in zip(words, told)], [(hex, fault_of(bytes.fromhex(hex))) for hex in words])

    async def test_has_the_schema_of_the_reader_from_outside(self):
        ours = {}
        for line in (FOLDER / "src/schema.txt").read_text().splitlines():
            form, name, *rest = line.split(" ")
            if form == "record":
                self.assertEqual(wire.TYPES[name], wire.parse_record(name, rest))
            elif form == "enum":
                self.assertEqual(wire.TYPES[name], wire.Enum(name, rest))
            elif form == "message":
                for sender in "CS" if rest[1] == "B" else rest[1]:
                    ours[int(name), int(rest[0]), sender] = wire.parse_record(rest[2], rest[3:])
        self.assertEqual(ours, {key: body for key, body in wire.BODIES.items() if key[0] in (0, 21)})

    async def test_keeps_numbers_beyond_a_double(self):
        page = await self.browser.open((FOLDER / "log.html").as_uri())
        numbers = [0, -1, 1 << 52, 2**53 - 1, 2**53, -(2**53), 2**53 + 1, -(2**53) - 1, 1 << 60, -(1 << 62), 2**63 - 1, -(2**63),
                   1_764_584_400_000_000]
        hexes = [wire.Writer().number(number).hex() for number in numbers]
        told = await page.evaluate("""(list => list.map(hex => String(new Reader(new Uint8Array(hex.length / 2).map(
          (_, at) => parseInt(hex.substr(2 * at, 2), 16))).number())))(%s)""" % json.dumps(hexes))
        self.assertEqual(told, [str(number) for number in numbers])


def fault_of(data):
    """Why the reader from outside refuses a server's message, or an empty text."""
    try:
        wire.read_message(data, "S")
    except wire.Fault as fault:
        return str(fault)
    return ""


def has_table(data):
    """Whether a message is of the protocols that the page reads, or of none at all."""
    try:
        return wire.Reader(data).value(wire.HEADER)["protocol"] not in set(wire.PROTOCOLS) - {0, 21}
    except wire.Refusal:
        return True


def whole_messages():
    """A server's messages that the page reads, with values of every kind."""
    values = [wire_any(branch) for branch in range(19)]
    items = [dict(channelId=0, indexes=[long_index(9)], value=dict(item=value), valueAttributes=[]) for value in values]
    odd = dict(channelId=1 << 40, indexes=[dict(item=(2, 5)), dict(item=(3, dict({"pass": 1}, direction=2, depth=7))), long_index(None)],
               value=dict(item=(5, 1)), valueAttributes=[dict(attributeId=1, attributeValue=dict(item=(3, 4)))])
    doubles = [item(0, "double", at, at / 3) for at in range(1_764_584_400_000_000, 1_764_584_400_000_020)]
    custom = {f"k{branch}": dict(item=value) for branch, value in enumerate(values)}
    record = Stub([(uri(0), "ROP \u00e4\u6df1", "double", "m/h")]).channels[0].record() | dict(customData=custom, axisVectorLengths=[3, -4])
    error = dict(message="not found", code=11)
    return [
        (0, 9, 2, 1, dict(currentDateTime=-5)), (0, 5, 0, 3, dict(reason="b\u00fcy")),
        (0, 1000, 2, 5, dict(error=(1, error), errors={})), (21, 1000, 2, 7, dict(error=(0, None), errors={"a": error, "b": error})),
        (21, 2, 4, 9, dict(metadata={"c0": record, "c1": record})), (21, 4, 0, 11, dict(data=doubles)), (21, 4, 0, 13, dict(data=[*items, odd])),
        (21, 6, 0, 15, dict(changeTime=1 << 50, channelIds=[0, 1 << 33], changedInterval=interval(-5, 1 << 61), data=doubles[:3])),
        (21, 8, 0, 17, dict(reason="lagged 9", channelIds={"0": 0, "x": 300})), (21, 12, 6, 19, dict(success={"c": ""})),
        (21, 13, 0, 21, dict(changeTime=0, channels=[dict(channelId=0, newEndIndex=long_index(77))])),
    ]


def wire_any(branch):
    """A value of each branch of a DataValue, as wire.py has it."""
    array = dict(item=(2, dict(values=[5, -6])))
    held = [
        None, True, -3, 1 << 62, struct.unpack("<I", struct.pack("<f", 1.5))[0], struct.unpack("<Q", struct.pack("<d", -2.5))[0], "clay",
        dict(values=[True, False]), dict(values=[(0, None), (1, True)]), dict(values=[1, 2]), dict(values=[(1, 7), (0, None)]),
        dict(values=[1 << 40]), dict(values=[(1, 1 << 40)]), dict(values=[1, 2]), dict(values=[3]), dict(values=["a", "\u00df"]), dict(values=[b"", b"xy"]), b"bytes",
        dict(slices=[dict(start=1, slice=array), dict(start=9, slice=dict(item=(6, b"z")))]),
    ]
    return branch, held[branch]


class Shown(Case):
    """The picture of the page that README shows."""

    async def test_picture(self):
        now = int(time.time())
        store = await self.helper(Stub([(uri(number), *rest) for number, rest in enumerate(DRILLED)], name="Rig 7"))
        for number, points in enumerate(drilled(now)):
            await store.load(number, points)
        page = await self.open(store.url, [uri(number) for number in range(len(DRILLED))], 1280, 720, **{"span": 2400})
        await page.evaluate("app.tracks.forEach((track, place) => track.readScale(%s[place], '', []))" % json.dumps([each[3] for each in SCALES]))
        await page.until("app.link.channels.every(it => it.column.count > 5)")
        await asyncio.sleep(1.2)
        data = await page.screenshot()
        self.assertLess(len(data), 150_000)
        if os.environ.get("PICTURE"):
            Path(os.environ["PICTURE"]).write_bytes(data)


DRILLED = [
    ("Rate of penetration", "double", "m/h"), ("Weight on bit", "double", "t"), ("Hook load", "double", "t"), ("Rotary speed", "double", "rpm"),
    ("Standpipe pressure", "double", "bar"), ("Gamma ray", "double", "gAPI"), ("Resistivity", "double", "ohm.m"), ("Lithology", "string", ""),
]
SCALES = [(0, 0, 0, scale) for scale in ["0:60", "0:25", "0:200", "0:200", "0:300", "0:150", "0.2:2000:log", ""]]


def drilled(now):
    """Forty minutes of drilling, one connection in their middle: a well that never was."""
    chance = random.Random(11)
    begin, curves, slow = now - 2400, [[] for _ in range(7)], [0.0] * 7
    for second in range(0, 2399, 2):
        pipe = 1000 <= second < 1260
        shale = 0.5 + 0.5 * math.tanh(2.2 * (math.sin(second / 370 + 0.6) + 0.7 * math.sin(second / 97) + 0.5 * math.sin(second / 41 + 2)))
        for at, pull in enumerate([0.3, 0.25, 0.2, 0.3, 0.15, 0.06, 0.05]):
            slow[at] += pull * (chance.gauss(0, 1) - slow[at])
        rop = 0 if pipe else 22 + 14 * (1 - shale) + 5 * slow[0]
        values = [
            max(rop, 0), 0 if pipe else 12 + 3 * shale + 1.2 * slow[1],
            48 + slow[2] if 1060 <= second < 1200 else 142 - (0 if pipe else 12) + 1.5 * slow[2],
            0 if pipe else 120 + 4 * slow[3], 0 if pipe and second > 1020 else 214 + 3 * slow[4], 38 + 78 * shale + 18 * slow[5],
            10 ** (1.9 - 1.5 * shale + 0.35 * slow[6])]
        for curve, value in zip(curves, values):
            curve.append(((begin + second) * SECOND, value))
    rocks = ["sandstone, fine", "siltstone", "shale, grey", "shale, silty", "sandstone", "limestone streak", "sandstone, coarse"]
    texts = [((begin + 90 + 340 * place) * SECOND, rock) for place, rock in enumerate(rocks)]
    return [*curves, texts]


if __name__ == "__main__":
    # A busy machine makes it tell of each step that took long.
    logging.getLogger("asyncio").setLevel(logging.ERROR)
    if browser.found() is None:
        print("test_page.py: skipped, no Chromium is installed (Debian: chromium)")
        sys.exit(0)
    with browser.running():
        unittest.main(warnings="ignore")
