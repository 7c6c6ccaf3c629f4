# SPDX-License-Identifier: Apache-2.0 OR MIT
"""Clients that tell a Datadog agent which tags to add."""
import unittest

from statsd_proved import SpyStatsClient

NAMES = ("none", "low", "orchestrator", "high")
EXTERNAL = "it-false,cn-web,pu-4a:é"


def lines_of(calls, **words):
    with SpyStatsClient("p", raises=True, **words) as client:
        calls(client)
        return client.lines


class Enrichment(unittest.TestCase):
    def test_external_data_and_cardinalities_come_before_the_time(self):
        lines = lines_of(lambda c: (c.incr("k", tags=["a"], timestamp=9, cardinality="low"), c.gauge("k", -1), c.set("k", "a")),
                         tags={"env": "prod"}, container="box", external_data=EXTERNAL)
        last = f"|c:box|e:{EXTERNAL}"
        self.assertEqual(lines, [f"p.k:1|c|#env:prod,a{last}|card:low|T9", f"p.k:0|g|#env:prod{last}", f"p.k:-1|g|#env:prod{last}",
                                 f"p.k:a|s|#env:prod{last}"])

    def test_the_cardinality_of_a_call_replaces_that_of_the_client(self):
        for ours in (None, *NAMES):
            for own in (None, *NAMES):
                kind = own or ours
                lines = lines_of(lambda c: (c.timing("k", [1, 2], cardinality=own), c.timer("k", cardinality=own).start().stop()),
                                 cardinality=ours)
                self.assertEqual(lines[0], "p.k:1:2|ms" + (f"|card:{kind}" if kind else ""))
                self.assertTrue(lines[1].endswith(f"|ms|card:{kind}" if kind else "|ms"), lines[1])

    def test_what_does_not_fit_is_refused(self):
        for text in ("|", "a|b", "\n", "a\n"):
            self.assertRaises(ValueError, SpyStatsClient, external_data=text)
        self.assertEqual(lines_of(lambda c: c.incr("k"), external_data=7), ["p.k:1|c|e:7"])  # as a container is
        for wrong in ("Low", "", 1, b"low"):
            self.assertRaises(ValueError, SpyStatsClient, cardinality=wrong)
            with SpyStatsClient(raises=True) as client:
                self.assertRaises(ValueError, client.incr, "k", cardinality=wrong)
                self.assertEqual(client.lines, [])
        self.assertEqual(lines_of(lambda c: c.incr("k"), external_data="", cardinality=None), ["p.k:1|c"])

    def test_strict_clients_and_those_that_clean_texts_send_external_data_as_they_are(self):
        for words in ({"strict": True}, {"clean": True}):
            self.assertEqual(lines_of(lambda c: c.incr("k"), external_data=EXTERNAL, **words), [f"p.k:1|c|e:{EXTERNAL}"])

    def test_events_and_service_checks_have_neither(self):
        lines = lines_of(lambda c: (c.event("a", "b"), c.service_check("n", c.OK)), external_data="cn-web", cardinality="high")
        self.assertEqual(lines, ["_e{1,1}:a|b", "_sc|n|0"])

    def test_pipelines_telemetry_and_clients_after_a_fork_have_them(self):
        def calls(client):
            with client.pipeline() as pipe:
                pipe.incr("k")
            client.flush()
            client._renew()
            client.incr("k")
        lines = lines_of(calls, external_data="cn-web", cardinality="high", telemetry="t", telemetry_min_flush_interval=0)
        last = "|c|e:cn-web|card:high"
        self.assertEqual(lines[0], f"p.k:1{last}")
        self.assertIn(f"t.packets_sent:1{last}", lines)
        self.assertEqual([line for line in lines if not line.endswith(last)], [])

    def test_sums_are_held_by_cardinalities(self):
        def calls(client):
            for cardinality in (None, "low", "low", None, "high", "low"):
                client.incr("k", cardinality=cardinality)
                client.gauge("g", 5, cardinality=cardinality)
        lines = lines_of(calls, aggregate=True)
        self.assertEqual(sorted(lines), ["p.g:5|g", "p.g:5|g|card:high", "p.g:5|g|card:low", "p.k:1|c|card:high", "p.k:2|c",
                                         "p.k:3|c|card:low"])


if __name__ == "__main__":
    unittest.main()
