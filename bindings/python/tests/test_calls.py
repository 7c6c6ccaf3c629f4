# SPDX-License-Identifier: Apache-2.0 OR MIT
"""The line of each call."""
import datetime
import decimal
import random
import unittest
from unittest import mock

from receiver import ClientTest
from statsd_proved import StatsClient, Status

THREE = [f"tag{number}:{number}" for number in range(20)]


class Calls(ClientTest):
    def check(self, calls, *lines, **words):
        self.assertEqual(self.sent_by(calls, **words), list(lines))

    def test_counters(self):
        self.check(lambda c: (c.incr("a"), c.incr("a", 10), c.incr("a", 1.2), c.decr("a"), c.decr("a", 2.5)),
                   "a:1|c", "a:10|c", "a:1.2|c", "a:-1|c", "a:-2.5|c")

    def test_prefix(self):
        for prefix, start in ((None, ""), ("", ""), ("p", "p."), ("p.q.", "p.q."), ("p..", "p.")):
            with self.subTest(prefix=prefix):
                self.check(lambda c: (c.incr("a"), c.set("s", "t"), c.gauge("g", 1, delta=True), c.gauge("g", -1)),
                           f"{start}a:1|c", f"{start}s:t|s", f"{start}g:+1|g", f"{start}g:0|g", f"{start}g:-1|g", prefix=prefix)

    def test_gauge(self):
        self.check(lambda c: (c.gauge("g", 30), c.gauge("g", 1.25), c.gauge("g", 0), c.gauge("g", decimal.Decimal("7.50"))),
                   "g:30|g", "g:1.25|g", "g:0|g", "g:7.5|g")

    def test_gauge_below_zero_is_set_to_zero_first(self):
        self.check(lambda c: c.gauge("g", -5, tags=["t"]), "g:0|g|#t", "g:-5|g|#t")

    def test_gauge_below_zero_is_one_packet(self):
        with self.client(maxudpsize=20) as client:
            client.incr("a.name")
            client.gauge("g", -5)
        self.assertEqual(self.receiver.packets(), ["a.name:1|c\n", "g:0|g\ng:-5|g\n"])

    def test_gauge_below_zero_has_no_rate(self):
        with mock.patch.object(random, "random", lambda: 0.0):
            self.check(lambda c: c.gauge("g", -5, 0.5), "g:0|g", "g:-5|g")

    def test_gauge_delta(self):
        self.check(lambda c: [c.gauge("g", value, delta=True) for value in (12, -13, 1.2, -1.3, 0, 2 ** 64 - 1)],
                   "g:+12|g", "g:-13|g", "g:+1.2|g", "g:-1.3|g", "g:+0|g", f"g:+{2 ** 64 - 1}|g")

    def test_set(self):
        self.check(lambda c: (c.set("s", 10), c.set("s", 2.3), c.set("s", "bar"), c.set("s", "a,b #@"), c.set("s", "é", tags=["t"])),
                   "s:10|s", "s:2.3|s", "s:bar|s", "s:a,b #@|s", "s:é|s|#t")

    def test_a_text_that_would_end_in_the_line_is_refused(self):
        texts = "", ":", "a:b", "|", "x|s", "a\n", "é|"
        with self.client() as client:
            for text in texts:
                client.set("s", text, tags=["t"])
            self.assertEqual([fault.status for fault in self.faults], [Status.INVALID] * len(texts))
        self.assertEqual(self.receiver.packets(), [])
        self.faults.clear()

    def test_a_change_is_one_value(self):
        with self.client() as client:
            client.gauge("g", [1, 2], delta=True)
            self.assertEqual([fault.status for fault in self.faults], [Status.INVALID])
        self.assertEqual(self.receiver.packets(), [])
        self.faults.clear()

    def test_timing(self):
        hour = datetime.timedelta(hours=1, microseconds=1500)
        self.check(lambda c: (c.timing("t", 350), c.timing("t", 0.1 + 0.2), c.timing("t", 1 / 3), c.timing("t", hour)),
                   "t:350|ms", "t:0.3|ms", "t:0.333333|ms", "t:3600001.5|ms")

    def test_timing_whose_six_places_do_not_fit(self):
        self.check(lambda c: c.timing("t", 28627697007271.367), "t:28627697007271.367|ms")

    def test_other_kinds(self):
        self.check(lambda c: (c.histogram("h", 2.5), c.distribution("d", 3), c.meter("m"), c.meter("m", 4)),
                   "h:2.5|h", "d:3|d", "m:1|m", "m:4|m")

    def test_lists_of_values(self):
        self.check(lambda c: (c.histogram("h", [1, 22, 0.5]), c.timing("t", (1, 2)), c.distribution("d", list(range(12)))),
                   "h:1:22:0.5|h", "t:1:2|ms", "d:0:1:2:3:4:5:6:7:8:9:10:11|d")

    def test_raw(self):
        self.check(lambda c: (c.raw("own:1|c|#é"), c.incr("a")), "own:1|c|#é", "p.a:1|c|#t", prefix="p", tags=["t"])

    def test_tags(self):
        self.check(lambda c: (c.incr("a", tags={"page": "home", "n": 7, "f": 2.5, 3: True}),
                              c.incr("a", tags=["k:v", "w", 7, ("k", 1.5)]), c.incr("a", tags=[]), c.incr("a", tags=THREE)),
                   "a:1|c|#page:home,n:7,f:2.5,3:True", "a:1|c|#k:v,w,7,k:1.5", "a:1|c", "a:1|c|#" + ",".join(THREE))

    def test_tags_of_the_client(self):
        self.check(lambda c: (c.incr("a"), c.incr("a", tags=("w",)), c.set("s", "x", tags={"k": 1})),
                   "a:1|c|#env:prod,n:7", "a:1|c|#env:prod,n:7,w", "s:x|s|#env:prod,n:7,k:1", tags={"env": "prod", "n": 7})

    def test_container_and_timestamp(self):
        self.check(lambda c: (c.incr("a"), c.incr("a", container="other"), c.gauge("g", 1, timestamp=2 ** 33)),
                   "a:1|c|c:id", "a:1|c|c:other", "g:1|g|c:id|T8589934592", container="id")

    def test_names_are_utf8(self):
        self.check(lambda c: c.incr("größe.€"), "größe.€:1|c")

    def test_positional_words_are_those_of_statsd(self):
        with mock.patch.object(random, "random", lambda: 0.0):
            with StatsClient(*self.receiver.address, "p", 512, False) as client:
                client.incr("a", 2, 0.5)
                client.gauge("g", 2, 0.5, True)
        self.assertEqual(self.receiver.lines(), ["p.a:2|c|@0.5", "p.g:+2|g|@0.5"])


class Sampling(ClientTest):
    def test_a_rate_samples(self):
        random.seed(7)
        lines = self.sent_by(lambda c: [c.incr("a", rate=0.1) for _ in range(10_000)], maxudpsize=8192)
        self.assertEqual(set(lines), {"a:1|c|@0.1"})
        self.assertTrue(800 < len(lines) < 1200, len(lines))

    def test_a_rate_of_one_is_not_printed(self):
        self.assertEqual(self.sent_by(lambda c: (c.incr("a", rate=1.0), c.incr("a", rate=3))), ["a:1|c"] * 2)

    def test_a_rate_of_zero_keeps_nothing(self):
        with mock.patch.object(random, "random", lambda: 0.0):
            self.assertEqual(self.sent_by(lambda c: (c.incr("a", rate=0), c.incr("a", rate=-1))), [])

    def test_each_kind_samples(self):
        with mock.patch.object(random, "random", lambda: 0.5):
            for rate, lines in ((0.4, []), (0.6, ["a:1|g|@0.6", "a:1|s|@0.6", "a:1|ms|@0.6", "a:1|h|@0.6"])):
                self.assertEqual(self.sent_by(lambda c: (c.gauge("a", 1, rate), c.set("a", "1", rate), c.timing("a", 1, rate),
                                                         c.histogram("a", 1, rate))), lines)


if __name__ == "__main__":
    unittest.main()
