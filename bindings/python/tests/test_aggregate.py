# SPDX-License-Identifier: Apache-2.0 OR MIT
"""Clients that add lines up: what is sent at a flush and at once, and what happens if the socket refuses packets."""
import unittest

from receiver import ClientTest, Recorder
from statsd_proved import SpyStatsClient, StatsClient


class Narrow(Recorder):
    """Refuses each third packet."""

    def __init__(self):
        super().__init__()
        self.calls = 0

    def sendto(self, packet, address):
        self.calls += 1
        self.fault = OSError("refused") if self.calls % 3 == 0 else None
        super().sendto(packet, address)


class Sums(ClientTest):
    def test_what_is_added_up_is_sent_at_a_flush(self):
        client = self.client(aggregate=True, prefix="p")
        for number in range(3):
            client.incr("hits", number, tags={"k": "v"})
            client.gauge("load", number / 2)
            client.set("users", 7)
        client.decr("hits", tags={"k": "v"})
        client.incr("hits")
        client.timing("wait", 12)
        self.assertEqual(self.receiver.packets(), [])
        client.flush()
        self.assertEqual(self.receiver.lines(), ["p.wait:12|ms", "p.hits:2|c|#k:v", "p.hits:1|c", "p.load:1|g", "p.users:7|s"])
        client.flush()
        self.assertEqual(self.receiver.packets(), [])

    def test_a_line_that_may_set_a_gauge_comes_after_the_gauges_that_are_held(self):
        client = self.client(aggregate=True)
        client.incr("hits")
        client.gauge("g", 5)
        client.gauge("g", -2)
        client.gauge("h", 1)
        client.gauge("h", 3, delta=True)
        client.gauge("h", -4, delta=True)
        client.gauge("g", 1)
        client.gauge("h", 2)
        client.gauge("h", 7, timestamp=8)
        for text in ("8.50", "x"):
            client.gauge("h", 9)
            client.raw(f"h:{text}|g")
        client.flush()
        expected = ["g:0|g", "g:-2|g", "h:1|g", "h:+3|g", "h:-4|g", "g:1|g", "h:2|g", "h:7|g|T8", "h:9|g", "h:x|g"]
        self.assertEqual(self.receiver.lines(), [*expected, "hits:1|c"])

    def test_the_lines_of_other_clients_are_added_up(self):
        client = self.client(aggregate=True, tags={"image": "nginx:1.25"})
        for number in (1, 2):
            client.incr("hits", number)
        for line in ("a:+1|c", "a:1e2|c", "u:alice|s|#k:v:w", "u:alice|s|#k:v:w", "x:1|c|e:it|@.5", "x:2|c|e:it|@.5"):
            client.raw(line)
        client.flush()
        self.assertEqual(self.receiver.lines(), ["hits:3|c|#image:nginx:1.25", "a:101|c", "x:3|c|e:it|@.5", "u:alice|s|#k:v:w"])

    def test_a_float_and_a_number_past_63_bits(self):
        client = self.client(aggregate=True)
        client.incr("a", 0.5)
        client.gauge("g", 2 ** 64 - 1)
        client.gauge("g", 0.25)
        client.flush()
        self.assertEqual(self.receiver.lines(), ["a:0.5|c", "g:0.25|g"])

    def test_calls_are_one_context_if_their_texts_are_the_same(self):
        client = self.client(aggregate=True)
        tags = ["a:b"]
        for _ in range(3):
            client.incr("n", tags=tags)
        tags.append("c:d")
        client.incr("n", 2, tags=tags)
        for _ in range(2):
            for same in ({"a": "b"}, [("a", "b")], (("a", "b"),), ("a:b",)):
                client.incr("n", 4, tags=same)
        for value in (1, True, 1.0, 1, True, 1.0):
            client.incr("n", tags={"k": value})
        for number in (5, 6, 7):
            client.gauge("n", number)
            client.incr("n", number, container="x")
            client.decr("n", number - 1, container="x")
        client.gauge("n", 8, delta=True)
        client.incr("n", 2 ** 63 - 1)
        client.incr("n")
        client.gauge("n", 9)
        client.gauge("n", -1)
        client.flush()
        expected = ["n:7|g", "n:+8|g", "n:9223372036854775807|c", "n:0|g", "n:-1|g"]
        expected += ["n:35|c|#a:b", "n:2|c|#a:b,c:d", "n:2|c|#k:1", "n:2|c|#k:True", "n:2|c|#k:1.0", "n:3|c|c:x", "n:1|c"]
        self.assertEqual(self.receiver.lines(), expected)

    def test_more_names_than_there_is_room_for(self):
        client = SpyStatsClient(aggregate=True, maxudpsize=1 << 20, packets=1 << 14)
        for _ in range(2):
            for number in range(5000):
                client.incr(f"a{number}")
        lines = client.lines
        self.assertEqual(sum(int(line.split(":")[1].split("|")[0]) for line in lines), 10000)
        self.assertEqual(len({line.split(":")[0] for line in lines}), 5000)

    def test_raw_lines_and_pipelines_are_added_up(self):
        client = self.client(aggregate=True)
        client.incr("a")
        client.raw("a:2|c")
        with client.pipeline() as pipeline:
            pipeline.incr("a", 3)
            pipeline.gauge("g", 1)
            pipeline.incr("a", 4)
        self.assertEqual(self.receiver.lines(), ["a:10|c", "g:1|g"])

    def test_a_flush_makes_as_many_packets_as_it_needs(self):
        client = self.client(aggregate=True, maxudpsize=8, packets=2)
        for number in range(9):
            client.incr(f"a{number}", number)
        client.flush()
        self.assertEqual(self.receiver.packets(), [f"a{number}:{number}|c\n" for number in range(9)])
        self.assertEqual(client.counts()["dropped"], 0)

    def test_a_refused_packet_loses_nothing(self):
        client = self.client(aggregate=True, maxudpsize=8, packets=2, flush_every=None)
        client._socket.close()
        client._socket = Recorder()
        client._socket.fault = OSError("refused")
        for number in range(9):
            client.incr(f"a{number}", number)
        client.flush()
        client.incr("a8")
        client._socket.fault = None
        client.flush()
        self.assertEqual(client._socket.lines(), [f"a{number}:{number}|c" for number in range(9)])
        self.assertEqual((client.counts()["bad"], client.counts()["dropped"]), (1, 0))

    def test_close_and_the_end_of_a_with_send_what_is_held(self):
        with self.client(aggregate=True, maxudpsize=8, packets=2) as client:
            for number in range(9):
                client.incr(f"a{number % 4}", number)
        self.assertEqual(self.receiver.lines(), ["a0:12|c", "a1:6|c", "a2:8|c", "a3:10|c"])

    def test_an_end_tries_again_as_long_as_it_sends_something(self):
        for end in (StatsClient.close, StatsClient._end):
            client = self.client(aggregate=True, maxudpsize=8, packets=2, flush_every=None)
            client._socket.close()
            client._socket = Narrow()
            for number in range(20):
                client.incr(f"a{number}")
            end(client)
            self.assertEqual(client._socket.lines(), [f"a{number}:1|c" for number in range(20)])
            counts = client.counts()
            self.assertEqual((counts["sent"], counts["dropped"], counts["refused"]), (20, 0, 9))

    def test_a_bad_call_adds_nothing(self):
        client = SpyStatsClient(aggregate=True, strict=True, on_error=self.faults.append)
        client.incr("a")
        client.incr("a:b")
        client.incr("a", 2 ** 64)
        self.assertEqual(client.lines, ["a:1|c"])
        self.assertEqual(client.counts()["bad"], 2)

    def test_it_is_off_by_default(self):
        client = SpyStatsClient()
        client.incr("a")
        client.incr("a")
        self.assertEqual(client.lines, ["a:1|c", "a:1|c"])


if __name__ == "__main__":
    unittest.main()
