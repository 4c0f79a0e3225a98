"""Channels with more points than a server gives at once: ranges are halved, and a watch begins with what can be subscribed to."""
import random
import unittest
import unittest.mock

import outside_server
from support import CHANNELS, channel_uri
import colmjurr
from colmjurr import Append, Copy, Restarted

MOST = 500


class LongChannels(unittest.TestCase):
    def setUp(self):
        for place in ("colmjurr.watching.LATEST", "outside_server.LimitedSession.most"):
            patch = unittest.mock.patch(place, MOST)
            patch.start()
            self.addCleanup(patch.stop)
        self.server = outside_server.OutsideServer(CHANNELS)
        self.addCleanup(self.server.close)
        self.store = colmjurr.connect(self.server.url)
        self.addCleanup(self.store.close)
        draw = random.Random(3)
        index, self.points = -(1 << 40), []
        for place in range(4000):
            index += draw.choice([1, 10, 1 << 20, 1 << 30])
            self.points.append((index, place))
        self.channel = self.store.channel(channel_uri(1))
        self.channel.load([index for index, _ in self.points], [value for _, value in self.points])

    def test_ranges(self):
        steps = []
        self.assertEqual(list(self.channel.range(progress=lambda done, of: steps.append(done))), self.points)
        self.assertEqual(steps, sorted(steps))
        self.assertGreater(steps[-1], 4000 * 7)
        for low, high in ((0, 3999), (100, 3000), (7, 8), (3999, 3999), (0, 600)):
            found = self.channel.range(self.points[low][0], self.points[high][0])
            self.assertEqual(list(found), self.points[low:high + 1])
        self.assertEqual(list(self.channel.range(self.points[-1][0] + 1, None)), [])

    def test_what_cannot_be_halved_is_refused(self):
        with unittest.mock.patch("outside_server.LimitedSession.most", 0), self.assertRaises(colmjurr.LimitExceeded):
            self.channel.range(self.points[5][0], self.points[9][0])

    def test_a_watch_from_the_first_point(self):
        with self.channel.watch() as watch:
            copy, first = Copy(), watch.next(30)
            self.assertIsInstance(first, Append)
            copy.apply(first)
            self.assertEqual(list(zip(copy.indexes, copy.values)), self.points)
            last = self.points[-1][0]
            self.channel.load([last + 1], [7])
            self.channel.replace(last - 1, last, [last], [8])
            for _ in range(2):
                copy.apply(watch.next(30))
            self.assertEqual(list(zip(copy.indexes, copy.values))[-2:], [(last, 8), (last + 1, 7)])

    def test_a_watch_that_begins_anew(self):
        with self.channel.watch(resume="full") as watch:
            self.assertEqual(len(watch.next(30).points), 4000)
            watch._runner.run(self.break_off(watch))
            again = watch.next(30)
            self.assertIsInstance(again, Restarted)
            self.assertEqual(list(again.points), self.points)

    def test_a_watch_that_goes_on_far_behind(self):
        start = self.points[3000][0]
        with self.channel.watch(start=start, resume="tail") as watch:
            self.assertEqual(list(watch.next(30).points), self.points[3000:])
            session = watch._held._session
            watch._runner.run(self.break_off(watch))
            more = [(self.points[-1][0] + 1 + place, place) for place in range(3 * MOST)]
            self.assertIsNotNone(session.lost)
            with colmjurr.connect(self.server.url) as rig:
                rig.channel(channel_uri(1)).load([index for index, _ in more], [value for _, value in more])
            self.assertIsInstance(watch.next(30), colmjurr.Gap)
            self.assertEqual(list(watch.next(30).points), more)

    @staticmethod
    async def break_off(watch):
        session = watch._held._session
        session.link.abort()
        await session.task


if __name__ == "__main__":
    unittest.main()
