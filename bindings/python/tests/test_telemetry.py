# SPDX-License-Identifier: Apache-2.0 OR MIT
"""Clients that send their own counts."""
import errno

from receiver import ClientTest, Recorder


class Telemetry(ClientTest):
    def made(self, **words):
        """Returns a client that sends its counts at each flush, and what takes the place of its socket."""
        client = self.client(**{"telemetry": "t.", "telemetry_min_flush_interval": 0, **words})
        client._socket.close()
        client._socket = recorder = Recorder()
        return client, recorder

    def test_a_report_has_what_has_grown(self):
        for words in ({}, {"aggregate": True}):
            client, recorder = self.made(prefix="p", tags={"k": "v"}, container="id", **words)
            client.incr("a")
            client.flush()
            self.assertEqual(recorder.lines(), ["p.a:1|c|#k:v|c:id"])
            for _ in range(2):  # the packet of a report is in the next one
                recorder.sent.clear()
                client.flush()
                self.assertEqual(recorder.lines(), ["t.packets_sent:1|c|#k:v|c:id"])

    def test_a_refused_packet_is_in_the_next_report(self):
        client, recorder = self.made()
        recorder.fault = OSError(errno.ECONNREFUSED, "refused")
        client.incr("a")
        client.flush()
        recorder.fault = None
        client.flush()
        self.assertEqual(recorder.lines(), ["a:1|c", "t.packets_refused:1|c"])
        self.assertEqual(len(self.faults), 1)

    def test_a_bad_call_is_in_the_next_report(self):
        client, recorder = self.made()
        client.gauge("a", float("nan"))
        client.flush()
        self.assertEqual(recorder.lines(), ["t.lines_refused:1|c"])

    def test_a_dropped_packet_is_in_the_next_report(self):
        client, recorder = self.made()
        recorder.fault = OSError(errno.EMSGSIZE, "too long")
        client.incr("a")
        client.flush()
        recorder.fault = None
        client.flush()
        self.assertEqual(recorder.lines(), ["t.packets_dropped:1|c", "t.packets_refused:1|c"])

    def test_a_client_reports_at_most_once_in_its_time(self):
        client, recorder = self.made(telemetry_min_flush_interval=3600)
        for _ in range(3):
            client.incr("a")
            client.flush()
        self.assertEqual(recorder.lines(), ["a:1|c"] * 3)

    def test_a_client_sends_no_counts_by_default(self):
        client, recorder = self.made(telemetry=None)
        client.incr("a")
        client.flush()
        client.flush()
        self.assertEqual(recorder.lines(), ["a:1|c"])

    def test_a_time_below_0_is_refused(self):
        for every in (-1, float("nan"), "1"):
            with self.assertRaises(ValueError):
                self.client(telemetry="t", telemetry_min_flush_interval=every)
