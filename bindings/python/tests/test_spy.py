# SPDX-License-Identifier: Apache-2.0 OR MIT
"""The client for tests of a service."""
import unittest

from statsd_proved import SpyStatsClient, StatsClient


class Spy(unittest.TestCase):
    def test_lines_of_all_calls(self):
        with SpyStatsClient("p", tags={"t": 1}, maxudpsize=16) as client:
            self.assertIsInstance(client, StatsClient)
            self.assertEqual(client.lines, [])
            client.incr("a")
            with client.pipeline() as pipe:
                pipe.gauge("b", -1)
            client.raw("x" * 70_000)
            client.set("c", "\u2028 \x85")
            wanted = ["p.a:1|c|#t:1", "p.b:0|g|#t:1", "p.b:-1|g|#t:1", "x" * 70_000, "p.c:\u2028 \x85|s|#t:1"]
            self.assertEqual((client.lines, client.lines), (wanted, wanted))
            self.assertEqual((client.counts()["made"], client.counts()["bad"]), (client.counts()["sent"], 0))

    def test_words_are_those_of_a_client(self):
        with SpyStatsClient(strict=True, raises=True, container="id") as client:
            self.assertRaises(ValueError, client.incr, "a|b")
            client.incr("a")
            self.assertEqual(client.lines, ["a:1|c|c:id"])


if __name__ == "__main__":
    unittest.main()
