# SPDX-License-Identifier: Apache-2.0 OR MIT
"""Clients with strict texts."""
import decimal
import unittest

from receiver import ClientTest
from statsd_proved import StatsClient, Status, StatusError

# Texts that no place of a call may have, and texts that may follow the key of a tag and may stand nowhere else.
HOSTILE = [",", "|", "\n", "a:1|c", "a,b:c", "a\nb:1|c", "é|"]
COLONS = [":", "http://x", "nginx:1.25", "::1"]


class Strict(ClientTest):
    def client(self, **words):
        return super().client(strict=True, **words)

    def assert_refused(self, *calls, **words):
        """Asserts that each of these calls is refused for a separator, and that nothing is sent."""
        with self.client(**words) as client:
            for call in calls:
                call(client)
            self.assertEqual([fault.status for fault in self.faults], [Status.SEPARATOR] * len(calls))
            self.assertEqual(client.counts()["bad"], len(calls))
        self.assertEqual(self.receiver.packets(), [])
        self.faults.clear()

    def test_a_call_with_a_separator_is_refused(self):
        for text in HOSTILE + COLONS:
            with self.subTest(text=text):
                self.assert_refused(
                    lambda c: c.incr(text), lambda c: c.timing(text, [1, 2]), lambda c: c.incr(text, 2 ** 64 - 1),
                    lambda c: c.incr("a", tags={text: "v"}), lambda c: c.incr("a", tags=[text, "b"]),
                    lambda c: c.incr("a", container=text))
        for text in HOSTILE:
            with self.subTest(text=text):
                self.assert_refused(lambda c: c.incr("a", tags=[("k", "v"), ("k", text)]))

    def test_the_first_colon_of_a_tag_ends_its_key(self):
        for text in COLONS:
            lines = self.sent_by(lambda c: (c.incr("a", tags={"own": text}), c.set("s", "v", tags={"own": text})), tags={"default": text})
            self.assertEqual(lines, [f"a:1|c|#default:{text},own:{text}", f"s:v|s|#default:{text},own:{text}"])

    def test_a_member_may_have_a_comma(self):
        self.assertEqual(self.sent_by(lambda c: c.set("s", "a,b")), ["s:a,b|s"])

    def test_members_changes_and_gauges_below_zero_are_refused_too(self):
        for text in HOSTILE + COLONS:
            with self.subTest(text=text):
                self.assert_refused(
                    lambda c: c.set(text, "v"), lambda c: c.set("s", "v", tags={text: "v"}),
                    lambda c: c.set("s", "v", tags=["a", text]), lambda c: c.set("s", "v", container=text),
                    lambda c: c.gauge(text, 1, delta=True), lambda c: c.gauge("g", 1, delta=True, tags=[text]),
                    lambda c: c.gauge(text, -1), lambda c: c.gauge("g", -1, container=text))
        for text in HOSTILE:
            with self.subTest(text=text):
                self.assert_refused(lambda c: c.set("s", "v", tags={"k": text}), lambda c: c.gauge("g", -1, tags={"k": text}))

    def test_a_pipeline_refuses_too(self):
        def calls(client):
            with client.pipeline() as pipe:
                pipe.incr("a|b")
        self.assert_refused(calls)

    def test_a_client_with_a_separator_is_not_made(self):
        for text in HOSTILE + COLONS:
            for words in ({"prefix": text}, {"prefix": f"p.{text}"}, {"tags": {text: "v"}}, {"tags": {"k": f"|{text}"}},
                          {"tags": ["a", text]}, {"tags": [("k", "v"), (text, "v")]}, {"container": text}):
                with self.subTest(words=words), self.assertRaises(StatusError) as raised:
                    StatsClient(*self.receiver.address, strict=True, **words)
                self.assertEqual(raised.exception.status, Status.SEPARATOR)
                self.assertIn("CADENCE_SEPARATOR", str(raised.exception))

    def test_calls_without_a_separator(self):
        words = {"prefix": "p", "tags": {"env": "prod", "n": 7}, "container": "id"}
        lines = self.sent_by(lambda c: (c.incr("a;#@", tags=["b", ("c d", "é")]), c.set("s", "bar"), c.gauge("g", -1, timestamp=9),
                                        c.gauge("g", decimal.Decimal("2.5"), delta=True)), **words)
        self.assertEqual(lines, ["p.a;#@:1|c|#env:prod,n:7,b,c d:é|c:id", "p.s:bar|s|#env:prod,n:7|c:id", "p.g:0|g|#env:prod,n:7|c:id|T9",
                                 "p.g:-1|g|#env:prod,n:7|c:id|T9", "p.g:+2.5|g|#env:prod,n:7|c:id"])

    def test_a_raw_line_is_not_tested(self):
        self.assertEqual(self.sent_by(lambda c: c.raw("own:1|c|#a,b")), ["own:1|c|#a,b"])

    def test_a_value_that_does_not_fit_is_refused_first(self):
        with self.client() as client:
            client.incr("a|b", float("nan"))
            client.incr("a|b", 2 ** 64)
        self.assertEqual([type(fault) for fault in self.faults], [ValueError, OverflowError])

    def test_a_client_after_a_fork_is_strict_too(self):
        client = self.client()
        client._renew()
        client.incr("a|b")
        self.assertEqual([fault.status for fault in self.faults], [Status.SEPARATOR])


class Lax(ClientTest):
    def test_a_client_that_is_not_strict_prints_separators(self):
        lines = self.sent_by(lambda c: (c.incr("a|b", tags=["k:v"]), c.set("s|", "x,y")), prefix="p:", tags={"a,": "b|"}, container="c,")
        self.assertEqual(lines, ["p:.a|b:1|c|#a,:b|,k:v|c:c,", "p:.s|:x,y|s|#a,:b||c:c,"])


if __name__ == "__main__":
    unittest.main()
