# SPDX-License-Identifier: Apache-2.0 OR MIT
"""Timers and pipelines."""
import asyncio
import functools
import inspect
import time
import unittest

from receiver import ClientTest

PAUSE = 0.02  # seconds


class Timers(ClientTest):
    def times_of(self, calls):
        """Returns the names and the milliseconds that are sent."""
        lines = [line.removesuffix("|ms").split(":") for line in self.sent_by(calls)]
        return [name for name, _ in lines], [float(value) for _, value in lines]

    def check_pause(self, calls):
        names, times = self.times_of(calls)
        self.assertEqual(names, ["t"])
        self.assertTrue(1000 * PAUSE <= times[0] < 60_000, times)

    def test_context(self):
        def calls(client):
            with client.timer("t") as timer:
                self.assertIsNone(timer.ms)
                time.sleep(PAUSE)
            self.assertIsInstance(timer.ms, float)
        self.check_pause(calls)

    def test_context_that_raises(self):
        def calls(client):
            with self.assertRaises(KeyError), client.timer("t"):
                time.sleep(PAUSE)
                raise KeyError
        self.check_pause(calls)

    def test_function(self):
        def calls(client):
            @client.timer("t")
            def pause(seconds, then=None):
                """Waits."""
                time.sleep(seconds)
                return then
            self.assertEqual(pause(PAUSE, then=7), 7)
            self.assertEqual((pause.__name__, pause.__doc__), ("pause", "Waits."))
        self.check_pause(calls)

    def test_function_that_raises(self):
        def calls(client):
            with self.assertRaises(ZeroDivisionError):
                client.timer("t")(lambda: time.sleep(PAUSE) or 1 / 0)()
        self.check_pause(calls)

    def test_partial_function(self):
        def calls(client):
            self.assertEqual(client.timer("t")(functools.partial(lambda x: time.sleep(PAUSE) or x * x, 3))(), 9)
        self.check_pause(calls)

    def test_coroutine(self):
        def calls(client):
            @client.timer("t")
            async def pause():
                await asyncio.sleep(PAUSE)
                return 7
            self.assertTrue(inspect.iscoroutinefunction(pause))
            self.assertEqual(asyncio.run(pause()), 7)
        self.check_pause(calls)

    def test_object_whose_call_is_a_coroutine(self):
        class Pause:
            async def __call__(self):
                await asyncio.sleep(PAUSE)
                return 7

        def calls(client):
            self.assertEqual(asyncio.run(client.timer("t")(Pause())()), 7)
        self.check_pause(calls)

    def test_a_misspelt_field_is_told_before_the_work(self):
        with self.client() as client:
            for wrong in ({"tagz": {"a": "b"}}, {"tag": ["a"]}, {"containers": "id"}):
                self.assertRaises(TypeError, lambda: client.timer("t", **wrong))
                self.assertRaises(TypeError, lambda: client.pipeline().timer("t", **wrong))

    def test_recursive_function_times_each_call(self):
        def calls(client):
            @client.timer("t")
            def down(n):
                time.sleep(PAUSE)
                return n and down(n - 1)
            down(2)
        names, times = self.times_of(calls)
        self.assertEqual(names, ["t"] * 3)
        self.assertTrue(times[0] + 900 * PAUSE < times[1] and times[1] + 900 * PAUSE < times[2], times)

    def test_object(self):
        def calls(client):
            timer = client.timer("t").start()
            time.sleep(PAUSE)
            timer.stop(send=False)
            timer.send()
        self.check_pause(calls)

    def test_object_in_the_wrong_order(self):
        with self.client() as client:
            timer = client.timer("t")
            self.assertRaises(RuntimeError, timer.stop)
            self.assertRaises(RuntimeError, timer.start().send)
            timer.stop()
            self.assertRaises(RuntimeError, timer.send)

    def test_fields(self):
        def calls(client):
            with client.timer("t", tags=["k:v"], timestamp=7):
                pass
        self.assertRegex(self.sent_by(calls)[0], r"^t:[\d.]+\|ms\|#k:v\|T7$")


class Pipelines(ClientTest):
    def test_goes_out_at_once(self):
        client = self.client(prefix="p", tags=["t"])
        with client.pipeline() as pipe:
            pipe.incr("foo")
            pipe.gauge("bar", -10)
            with pipe.timer("baz"):
                pass
            self.assertEqual(self.receiver.packets(), [])
        packets = self.receiver.packets()
        self.assertEqual(len(packets), 1)
        self.assertRegex(packets[0], r"^p\.foo:1\|c\|#t\np\.bar:0\|g\|#t\np\.bar:-10\|g\|#t\np\.baz:[\d.]+\|ms\|#t\n$")

    def test_follows_what_the_client_holds(self):
        client = self.client()
        client.incr("first")
        pipe = client.pipeline()
        pipe.incr("second")
        pipe.send()
        pipe.send()
        client.incr("third")
        client.flush()
        self.assertEqual(self.receiver.lines(), ["first:1|c", "second:1|c", "third:1|c"])

    def test_is_not_bounded(self):
        client = self.client(packets=2)
        with client.pipeline().pipeline() as pipe:
            for number in range(1000):
                pipe.incr("a", number)
        packets = self.receiver.packets()
        self.assertTrue(all(len(packet) <= 512 for packet in packets))
        self.assertEqual("".join(packets).splitlines(), [f"a:{number}|c" for number in range(1000)])
        self.assertEqual(client.counts()["dropped"], 0)

    def test_of_nothing(self):
        client = self.client()
        client.pipeline().send()
        self.assertEqual((self.receiver.packets(), client.counts()["made"]), ([], 0))

    def test_bad_values_are_the_clients(self):
        client = self.client()
        with client.pipeline() as pipe:
            pipe.gauge("a", float("nan"))
        self.assertEqual((client.counts()["bad"], [type(fault) for fault in self.faults]), (1, [ValueError]))

    def test_of_a_closed_client(self):
        client = self.client()
        pipe = client.pipeline()
        pipe.incr("a")
        client.close()
        pipe.send()
        self.assertNotEqual(self.faults, [])


if __name__ == "__main__":
    unittest.main()
