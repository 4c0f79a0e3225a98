"""Links that break: a proxy cuts the connection again and again while points are loaded and watched, and none is lost or doubled."""
import asyncio
import threading
import time
import unittest

import outside_server
import support
from support import PATIENCE, ServerCase, channel_uri, well_uri
import colmjurr
from colmjurr import Append, Copy, Gap, LinkLost, Refused, Restarted, Stopped

POINTS = 10_000


class Proxy:
    """Passes the bytes of connections on, and cuts both ends of all of them at every k-th message: after it, or in its middle."""

    def __init__(self, port, every=None, in_the_middle=False, listen=0):
        self.target, self.every, self.in_the_middle = port, every, in_the_middle
        self.messages = self.cuts = self.connections = 0
        self.is_open = True
        self.ends = set()
        self.thread = outside_server.LoopThread(self.serve, listen)
        self.url = self.thread.url

    async def serve(self, reader, writer):
        if not self.is_open:
            return
        self.connections += 1
        there_reader, there_writer = await asyncio.open_connection("127.0.0.1", self.target, limit=1 << 20)
        ends = (writer, there_writer)
        self.ends.add(ends)
        try:
            await asyncio.gather(self.head(reader, there_writer), self.head(there_reader, writer))
            await asyncio.gather(self.frames(reader, there_writer), self.frames(there_reader, writer))
        finally:
            self.ends.discard(ends)
            for each in ends:
                each.transport.abort()

    @staticmethod
    async def head(reader, writer):
        writer.write(await reader.readuntil(b"\r\n\r\n"))

    async def frames(self, reader, writer):
        while True:
            frame = await reader.readexactly(2)
            size = frame[1] & 0x7F
            if size >= 126:
                more = await reader.readexactly(2 if size == 126 else 8)
                frame, size = frame + more, int.from_bytes(more, "big")
            frame += await reader.readexactly(size + (4 if frame[1] & 0x80 else 0))
            self.messages += 1
            is_cut = self.every is not None and self.messages % self.every == 0
            writer.write(frame[:len(frame) // 2] if is_cut and self.in_the_middle else frame)
            await writer.drain()
            if is_cut:
                self.cuts += 1
                await asyncio.sleep(0.001)
                self.cut()
                return

    def cut(self):
        for ends in list(self.ends):
            for each in ends:
                each.transport.abort()

    def cut_all(self):
        async def cut():
            self.cut()

        asyncio.run_coroutine_threadsafe(cut(), self.thread.loop).result(120)

    def close(self):
        self.thread.close()


class Follower(threading.Thread):
    """Keeps a copy of a channel until it has the last index."""

    def __init__(self, watch, last):
        super().__init__(daemon=True)
        self.watch, self.last, self.copy, self.changes, self.error = watch, last, Copy(), [], None
        self.start()

    def run(self):
        try:
            for change in self.watch:
                self.changes.append(change)
                self.copy.apply(change)
                if self.copy.indexes and self.copy.indexes[-1] >= self.last:
                    return
        except Exception as error:
            self.error = error


class Cuts(ServerCase):
    def load_and_watch(self, every, in_the_middle, resume, number):
        proxy = Proxy(self.server.port, every, in_the_middle)
        self.addCleanup(proxy.close)
        how = {"ask_timeout": 120 * PATIENCE, "timeout": 60 * PATIENCE, "patience": 120 * PATIENCE}
        rig, office = colmjurr.connect(self.server.url, **how), colmjurr.connect(self.server.url, **how)
        self.addCleanup(rig.close)
        self.addCleanup(office.close)
        # the stores were opened without the proxy; every further connection goes through it
        for store in (rig, office):
            store._held._dial = lambda: colmjurr.store.websocket.connect(proxy.url, headers={}, timeout=20 * PATIENCE)
            store._runner.run(self.drop(store))
        points = [(1000 + 3 * place, place) for place in range(POINTS)]
        watch = office.channel(channel_uri(number)).watch(resume=resume)
        # the watch has begun before the first point is loaded, so the cuts meet it too
        watch.__enter__()
        follower = Follower(watch, points[-1][0])
        channel = rig.channel(channel_uri(number))
        with channel.loader(every=None, most=40) as load:
            for index, value in points:
                load(index, value)
        follower.join(600 * PATIENCE)
        self.assertIsNone(follower.error)
        self.assertFalse(follower.is_alive(), (len(follower.copy.indexes), proxy.cuts, follower.changes[-3:]))
        with colmjurr.connect(self.server.url, **how) as plain:
            self.assertEqual(list(plain.channel(channel_uri(number)).range()), points)
        self.assertEqual(list(zip(follower.copy.indexes, follower.copy.values)), points)
        self.assertGreater(proxy.cuts, 5)
        return follower, proxy

    @staticmethod
    async def drop(store):
        store._held._session.link.abort()
        await asyncio.sleep(0.01)

    def test_cut_behind_each_97th_message(self):
        follower, _ = self.load_and_watch(97, False, "full", 1)
        self.assertTrue(any(isinstance(each, Restarted) for each in follower.changes))

    def test_cut_in_each_61st_message(self):
        self.load_and_watch(61, True, "full", 4)

    def test_cut_in_each_40th_message_and_on_from_the_tail(self):
        follower, _ = self.load_and_watch(40, True, "tail", 0)
        told = [index for each in follower.changes if isinstance(each, Append) for index in each.points.indexes]
        self.assertEqual(told, sorted(set(told)))
        self.assertEqual(len(told), POINTS)
        self.assertTrue(any(isinstance(each, Gap) for each in follower.changes))


class ProxyCase(ServerCase):
    """A case whose stores talk to the server through proxies."""

    def through(self, proxy, **how):
        store = colmjurr.connect(proxy.url, **{"patience": 60 * PATIENCE, "ask_timeout": 120 * PATIENCE, **how})
        self.addCleanup(store.close)
        return store

    def proxy(self, **how):
        proxy = Proxy(self.server.port, **how)
        self.addCleanup(proxy.close)
        return proxy


class Away(ProxyCase):
    def test_a_server_that_is_away_for_a_while(self):
        """Connections are refused for a while, as when a server or a proxy is restarted: all goes on when they are accepted again."""
        proxy = self.proxy()
        rig, office, third = (self.through(proxy, patience=60 * PATIENCE) for _ in range(3))
        channel = rig.channel(channel_uri(0))
        with office.channel(channel_uri(0)).watch(start="now", resume="tail") as watch, channel.loader(every=0.01) as load:
            load(1, 1.0)
            load.settle()
            self.assertEqual(list(watch.next(120 * PATIENCE).points), [(1, 1.0)])
            proxy.cut_all()
            proxy.close()
            load(2, 2.0)
            spaces = []
            asking = threading.Thread(target=lambda: spaces.extend(third.spaces()), daemon=True)
            asking.start()
            time.sleep(1)
            again = Proxy(self.server.port, listen=proxy.thread.port)
            self.addCleanup(again.close)
            load.settle()
            self.assertIsInstance(watch.next(60 * PATIENCE), Gap)
            self.assertEqual(list(watch.next(120 * PATIENCE).points), [(2, 2.0)])
            asking.join(60 * PATIENCE)
            self.assertEqual([each.path for each in spaces], [""])

    def test_a_loader_that_is_idle_outlives_many_breaks(self):
        """The patience counts from each break, not from the first one: after each it is as if there had been none."""
        proxy = self.proxy()
        store = self.through(proxy)
        channel = store.channel(channel_uri(1))
        last = channel.last or 0
        with channel.loader(every=0.01) as load:
            end = time.monotonic() + 300 * PATIENCE
            for _ in range(4):
                before = store._held.reconnects
                proxy.cut_all()
                # it has opened its channel again, and so has not lost its patience
                while store._held.reconnects == before or load._held._session.lost is not None or load._held._patience.since is not None:
                    self.assertLess(time.monotonic(), end)
                    self.assertFalse(load._held._is_over, load._held._errors)
                    time.sleep(0.01)
                self.assertEqual(load._held._patience.tries, 0)
            load(last + 1, 1)
            load.settle()
        self.assertEqual(load.taken, 1)

    def test_access_that_is_denied_is_not_asked_for_again(self):
        asked = []

        async def serve(reader, writer):
            asked.append(await reader.readuntil(b"\r\n\r\n"))
            writer.write(b"HTTP/1.1 403 Forbidden\r\n\r\n")

        proxy = self.proxy()
        store = self.through(proxy)
        proxy.cut_all()
        proxy.close()
        door = outside_server.LoopThread(serve, proxy.thread.port)
        self.addCleanup(door.close)
        with self.assertRaises(colmjurr.HandshakeError) as caught:
            store.spaces()
        self.assertEqual(caught.exception.status, 403)
        self.assertEqual(len(asked), 1)

    def test_a_watch_that_is_asked_in_short_steps_begins_again(self):
        """A caller who looks in every 50 ms, and gives up waiting each time, does not keep the watch from dialing."""
        proxy = self.proxy()
        plain = self.connect().channel(channel_uri(4))
        plain.load([1, 2], [1, 2])
        with self.through(proxy, patience=60 * PATIENCE).channel(channel_uri(4)).watch() as watch:
            self.assertEqual(len(watch.next(120 * PATIENCE).points), 2)
            proxy.is_open = False
            proxy.cut_all()
            for _ in range(40):
                with self.assertRaises(colmjurr.TimeLimit):
                    watch.next(0.05)
            proxy.is_open = True
            end = time.monotonic() + 60 * PATIENCE
            change = None
            while change is None:
                self.assertLess(time.monotonic(), end)
                try:
                    change = watch.next(0.05)
                except colmjurr.TimeLimit:
                    pass
            self.assertEqual((type(change), list(change.points)), (Restarted, [(1, 1), (2, 2)]))

    def test_a_watch_that_is_refused_says_so_each_time(self):
        store = self.connect()
        with store.channel(channel_uri(3)).watch():
            second = store.channel(channel_uri(3)).watch()
            for _ in range(2):
                with self.assertRaises(Refused):
                    second.next(120 * PATIENCE)
        plain = self.connect()
        channel = plain.channel(channel_uri(3))
        channel.load([(channel.last or 0) + 1], [True])
        self.assertTrue(len(second.next(120 * PATIENCE).points))


class Resuming(ProxyCase):
    settings = {"lag": 20}

    def test_what_can_be_repeated_is(self):
        proxy = self.proxy()
        store = self.through(proxy)
        store.put(well_uri(1), b"1")
        for _ in range(3):
            proxy.cut_all()
            self.assertEqual(store.get(well_uri(1)).data, b"1")
        self.assertEqual(proxy.connections, 4)
        proxy.cut_all()
        # a put over a connection that is lost and not known to be so is not repeated
        while store._held._session.lost is None:
            time.sleep(0.01)
        store.put(well_uri(1), b"2")
        self.assertEqual(store.get(well_uri(1)).data, b"2")

    def test_patience_ends(self):
        proxy = self.proxy()
        store = self.through(proxy, patience=0.5)
        proxy.is_open = False
        proxy.cut_all()
        with self.assertRaises(colmjurr.LinkError):
            store.spaces()
        with self.assertRaises(colmjurr.LinkError):
            with store.channel(channel_uri(0)).loader() as load:
                load(1, 1.0)

    def test_a_transaction_ends_with_its_link(self):
        proxy = self.proxy()
        store = self.through(proxy)
        with self.assertRaises(LinkLost):
            with store.transaction() as tx:
                tx.put(well_uri(2), b"1")
                proxy.cut_all()
                time.sleep(0.05)
                tx.put(well_uri(3), b"1")
        with self.assertRaises(colmjurr.NotFound):
            store.get(well_uri(2))

    def test_a_watch_without_resume_says_what_broke_it(self):
        proxy = self.proxy()
        watch = self.through(proxy).channel(channel_uri(0)).watch(resume=None)
        with watch:
            proxy.cut_all()
            with self.assertRaises(LinkLost):
                watch.next(120 * PATIENCE)

    def test_corrections_are_there_after_a_break(self):
        proxy = self.proxy()
        plain = self.connect()
        channel = plain.channel(channel_uri(5))
        channel.load([1, 2, 3, 4], [1.0, 2.0, 3.0, 4.0])
        full = self.through(proxy).channel(channel_uri(5)).watch(resume="full")
        tail = self.through(proxy).channel(channel_uri(5)).watch(resume="tail")
        for watch in (full, tail):
            self.assertEqual(list(watch.next(120 * PATIENCE).points), [(1, 1.0), (2, 2.0), (3, 3.0), (4, 4.0)])
        # nobody comes in before it is corrected
        proxy.is_open = False
        proxy.cut_all()
        channel.replace(2, 3, [2], [20.0])
        channel.load([5], [5.0])
        proxy.is_open = True
        change = full.next(120 * PATIENCE)
        self.assertIsInstance(change, Restarted)
        self.assertEqual(list(change.points), [(1, 1.0), (2, 20.0), (4, 4.0), (5, 5.0)])
        self.assertIsInstance(tail.next(120 * PATIENCE), Gap)
        self.assertEqual(list(tail.next(120 * PATIENCE).points), [(5, 5.0)])

    def test_a_channel_that_is_emptied_meanwhile(self):
        proxy = self.proxy()
        channel = self.connect().channel(channel_uri(6))
        channel.load([1], [b"x"])
        watch = self.through(proxy).channel(channel_uri(6)).watch()
        self.assertEqual(len(watch.next(120 * PATIENCE).points), 1)
        proxy.is_open = False
        proxy.cut_all()
        channel.truncate(0)
        proxy.is_open = True
        change = watch.next(120 * PATIENCE)
        self.assertEqual((type(change), len(change.points)), (Restarted, 0))

    def test_subscriptions_that_the_server_stops(self):
        store = self.connect()
        channel = store.channel(channel_uri(3))
        for resume, wanted in (("full", Restarted), ("tail", Gap), (None, Stopped)):
            watch = self.connect().channel(channel_uri(3)).watch(start="now", resume=resume)
            with watch:
                self.stop(watch, "lagged 30")
                if wanted is Stopped:
                    with self.assertRaises(Stopped) as caught:
                        watch.next(120 * PATIENCE)
                    self.assertEqual(caught.exception.reason, "lagged 30")
                else:
                    self.assertIsInstance(watch.next(120 * PATIENCE), wanted)
                    index = (channel.last or 0) + 1
                    channel.load([index], [True])
                    channel.refresh()
                    self.assertEqual(list(watch.next(120 * PATIENCE).points), [(index, True)])
                    self.assertEqual(watch.restarts, 1)

    def stop(self, watch, reason):
        """Ends the subscriptions as a server does whose client has fallen too far behind."""
        session = watch._held._session

        async def end():
            await session.ask("UnsubscribeChannels", {"channelIds": {"0": 3}})
            session._tell("SubscriptionsStopped", {"reason": reason, "channelIds": {"0": 3}})

        watch._runner.run(end())

    def test_a_channel_is_watched_once_in_a_session(self):
        store = self.connect()
        channel = store.channel(channel_uri(2))
        with channel.watch():
            with self.assertRaises(Refused):
                channel.watch().next(120 * PATIENCE)
        with channel.watch() as again:
            channel.load([1], ["a"])
            self.assertEqual(list(again.next(120 * PATIENCE).points), [(1, "a")])

    def test_a_watch_that_is_left_can_be_begun_again(self):
        """As a cell of a notebook is run again: the watch that its loop has left does not keep the channel."""
        channel = self.connect().channel(channel_uri(2))
        last = (channel.last or 0) + 1
        channel.load([last], ["a"])
        for _ in range(3):
            for change in channel.watch(start=last):
                self.assertEqual(list(change.points), [(last, "a")])
                break

    def test_where_a_watch_begins(self):
        store = self.connect()
        channel = store.channel(channel_uri(1))
        channel.load([10, 20, 30], [1, 2, 3])
        for how, wanted in (({"start": 20}, [20, 30]), ({"latest": 1}, [30]), ({"start": "1970-01-01T00:00:00.000021"}, [30]), ({}, [10, 20, 30])):
            with channel.watch(**how) as watch:
                self.assertEqual(list(watch.next(120 * PATIENCE).points.indexes), wanted)
        with channel.watch(start="now") as watch:
            channel.load([40], [4])
            self.assertEqual(list(watch.next(120 * PATIENCE).points), [(40, 4)])
        with channel.watch(start="now", changes=False) as watch:
            channel.truncate(30)
            channel.load([50], [5])
            self.assertEqual(list(watch.next(120 * PATIENCE).points), [(50, 5)])
        with store.watch(store.channels([channel_uri(1), channel_uri(2)]), start="now") as watch:
            channel.load([60], [6])
            self.assertEqual(watch.next(120 * PATIENCE).channel.name, "c1")
            with self.assertRaises(colmjurr.TimeLimit):
                watch.next(0.05)
            channel.load([61], [6])
            self.assertEqual(list(watch.next(120 * PATIENCE).points), [(61, 6)])


if __name__ == "__main__":
    unittest.main()
