# SPDX-License-Identifier: Apache-2.0 OR MIT
"""Clients that clean texts."""
import unittest

from receiver import ClientTest, Recorder
from statsd_proved import SpyStatsClient, StatsClient


def lines_of(calls, *prefix, **words):
    with SpyStatsClient(*prefix, clean=True, raises=True, **words) as client:
        calls(client)
        return client.lines


class Clean(unittest.TestCase):
    def test_each_separator_of_a_call_is_an_underscore(self):
        lines = lines_of(lambda c: (c.incr("a:1|c\nb,c"), c.timing("a:b", [1, 2]), c.incr("é|", 2 ** 64 - 1),
                                    c.incr("a", tags={"k:": "v:w,x|y"}), c.incr("a", tags=["a:b:c\n", "x,y", ("k", ":")], container="c:d"),
                                    c.gauge("g,", 2.5, timestamp=9), c.incr(":", 3, 0.5)), "p")
        self.assertEqual(lines[:6], ["p.a_1_c_b_c:1|c", "p.a_b:1:2|ms", "p.é_:18446744073709551615|c", "p.a:1|c|#k_:v:w_x_y",
                                     "p.a:1|c|#a:b:c_,x_y,k::|c:c_d", "p.g_:2.5|g|T9"])
        self.assertIn(lines[6:], ([], ["p._:3|c|@0.5"]))

    def test_texts_of_the_client_itself_are_cleaned(self):
        for tags in ({"k,": "v:w\n", "x": "y|"}, [("k,", "v:w\n"), "x:y|"]):
            lines = lines_of(lambda c: (c.incr("n"), c.incr("n", tags=["b"], container="e:f")), "a:b|c.", tags=tags, container="c|d")
            self.assertEqual(lines, ["a_b_c.n:1|c|#k_:v:w_,x:y_|c:c_d", "a_b_c.n:1|c|#k_:v:w_,x:y_,b|c:e_f"])

    def test_texts_without_a_separator_stay(self):
        lines = lines_of(lambda c: c.incr("a;#@", tags=["b", ("c d", "é"), ("url", "http://x")]), "p", tags={"n": 7}, container="")
        self.assertEqual(lines, ["p.a;#@:1|c|#n:7,b,c d:é,url:http://x|c:"])

    def test_members_changes_and_gauges_below_zero(self):
        lines = lines_of(lambda c: (c.set("s|", "a,b", tags={"k": "a,b"}), c.set("s|", 3), c.gauge("g|", 1, delta=True),
                                    c.gauge("g:", -1, tags=["a|b"], container=",")))
        self.assertEqual(lines, ["s_:a,b|s|#k:a_b", "s_:3|s", "g_:+1|g", "g_:0|g|#a_b|c:_", "g_:-1|g|#a_b|c:_"])

    def test_members_and_lines_of_ones_own_are_not_cleaned(self):
        with SpyStatsClient(clean=True, raises=True, tags=[("k:", "v")]) as client:
            self.assertRaises(ValueError, client.set, "s", "a:b")
            client.event("a:b", "c", hostname="a|b", tags=["page:home,x", "url:http://x"])
            client.raw("own:1|c|#a,b")
            self.assertEqual(client.lines, ["_e{3,1}:a:b|c|h:a_b|#k_:v,page:home_x,url:http://x", "own:1|c|#a,b"])

    def test_a_pipeline_sums_and_a_client_after_a_fork(self):
        def calls(client):
            with client.pipeline() as pipe:
                pipe.incr("a|b")
            client._renew()
            client.incr("a|b")
        self.assertEqual(lines_of(calls)[-1], "a_b:1|c")
        self.assertEqual(lines_of(lambda c: (c.incr("a|b"), c.incr("a:b"), c.flush()), aggregate=True), ["a_b:2|c"])

    def test_values_are_refused_as_before(self):
        with SpyStatsClient(clean=True, raises=True) as client:
            self.assertRaises(ValueError, client.incr, "a|b", float("nan"))
            self.assertRaises(OverflowError, client.incr, "a|b", 2 ** 64)

    def test_a_client_is_not_strict_too(self):
        self.assertRaises(ValueError, SpyStatsClient, strict=True, clean=True)
        self.assertRaises(ValueError, StatsClient.from_environment, strict=True, clean=True)


class OwnCounts(ClientTest):
    def test_the_counters_of_the_client_are_cleaned(self):
        client = self.client(clean=True, telemetry="own:x", telemetry_min_flush_interval=0, tags={"k": "a,b"}, container="c|d")
        client._socket.close()
        client._socket = recorder = Recorder()
        client.incr("a")
        client.flush()
        client.flush()
        self.assertEqual(recorder.lines(), ["a:1|c|#k:a_b|c:c_d", "own_x.packets_sent:1|c|#k:a_b|c:c_d"])


if __name__ == "__main__":
    unittest.main()
