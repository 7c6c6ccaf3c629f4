# SPDX-License-Identifier: Apache-2.0 OR MIT
"""Events and service checks, by the rows of events.rows, and how clients send and refuse them."""
import pathlib
import re
import unittest

from receiver import ClientTest
from statsd_proved import SpyStatsClient, StatsClient, Status, StatusError

BINDINGS = pathlib.Path(__file__).resolve().parents[2]
# an archive has the file beside this package, and the repository has it where its own tests read it
PLACES = BINDINGS / "events.rows", BINDINGS.parent / "crates/test_calls/data/events.rows"
ROWS = next((place for place in PLACES if place.exists()), PLACES[0])
NAMES = {"title": "title", "text": "text", "name": "name", "message": "message", "host": "hostname", "key": "aggregation_key",
         "source": "source_type", "priority": "priority", "alert": "alert_type", "container": "container"}
STATES = {"ok": StatsClient.OK, "warning": StatsClient.WARNING, "critical": StatsClient.CRITICAL, "unknown": StatsClient.UNKNOWN}
UNFIT = {"name": Status.UNFIT_NAME, "host": Status.UNFIT_HOST, "key": Status.UNFIT_KEY, "source": Status.UNFIT_SOURCE,
         "tag": Status.UNFIT_TAGS, "container": Status.UNFIT_CONTAINER, "message": Status.UNFIT_MESSAGE}


def value(text):
    """Returns the text of a value in a row."""
    def one(escape):
        return b"\n" if escape[0] == b"\\n" else bytes([int(escape[1], 16)])
    return re.sub(rb"\\n|\\x(..)", one, text.encode()).decode()


def tag(text):
    """Returns a tag: a pair, or a text alone."""
    key, equals, rest = text.partition("=")
    return (key, rest) if equals else text


def lines_of(call):
    """Makes the call of a row, and returns its lines."""
    kind, *pairs = call.split(" & ")
    fields = [(name, value(given)) for name, given in (pair.split("=", 1) for pair in pairs)]
    words = {NAMES[name]: given for name, given in fields if name in NAMES}
    words["tags"] = [tag(given) for name, given in fields if name == "tag"] or None
    for name, given in fields:
        if name == "time":
            words["timestamp"] = int(given)
        if name == "status":
            words["status"] = STATES[given]
    defaults = {"tags": [tag(given) for name, given in fields if name == "default_tag"],
                "container": dict(fields).get("default_container"), "clean": "cleaned" in dict(fields)}
    with SpyStatsClient("no.prefix", raises=True, **defaults) as client:
        if kind == "event":
            client.event(words.pop("title"), words.pop("text"), **words)
        else:
            client.service_check(words.pop("name"), words.pop("status"), **words)
        return client.lines


class Rows(unittest.TestCase):
    def test_each_row_is_sent_or_refused(self):
        rows = [row.split(" <- ") for row in ROWS.read_text().split("\n") if " <- " in row and not row.startswith("#")]
        self.assertGreater(len(rows), 80)
        for wanted, call in rows:
            with self.subTest(call=call):
                if not wanted.startswith("refuses "):
                    self.assertEqual(lines_of(call), [value(wanted)])
                    continue
                with self.assertRaises(StatusError) as raised:
                    lines_of(call)
                self.assertEqual(raised.exception.status, UNFIT[wanted.removeprefix("refuses ")])
                self.assertIn(raised.exception.status.name, str(raised.exception))


class Sending(ClientTest):
    def test_lines_are_packed_among_those_of_metrics(self):
        def calls(client):
            client.incr("a")
            client.event("Deploy", "version\n2.1", priority="low", timestamp=7.9)
            client.service_check("web", client.CRITICAL, message="m:no")
            with client.pipeline() as pipe:
                pipe.event("1", "c")
                pipe.service_check("web", StatsClient.OK)
            client.gauge("b", 2)

        first = ["p.a:1|c", "_e{6,12}:Deploy|version\\n2.1|d:7|p:low", "_sc|web|2|m:m\\:no"]
        rest = ["_e{1,1}:1|c", "_sc|web|0", "p.b:2|g"]
        self.assertEqual(self.sent_by(calls, prefix="p"), first + rest)
        self.assertEqual(sorted(self.sent_by(calls, prefix="p", aggregate=True)), sorted(first + rest))

    def test_two_events_that_read_as_counters_are_not_added_up(self):
        def calls(client):
            client.event("1", "c")
            client.event("1", "c")
            with client.pipeline() as pipe:
                pipe.event("1", "c")

        self.assertEqual(self.sent_by(calls, aggregate=True), ["_e{1,1}:1|c"] * 3)

    def test_tags_that_are_texts(self):
        with SpyStatsClient(raises=True, tags=["a:b"]) as client:
            client.event("a", "b", tags=["page:home", "beta", ("k", 7), ":x", "y:"])
            client.service_check("a", client.OK, tags={"page": "home"})
            self.assertEqual(client.lines, ["_e{1,1}:a|b|#a:b,page:home,beta,k:7,:x,y:", "_sc|a|0|#a:b,page:home"])
            client.event("a", "b", tags=["url:http://x"])
            self.assertEqual(client.lines[-1], "_e{1,1}:a|b|#a:b,url:http://x")
            with self.assertRaises(StatusError) as raised:
                client.event("a", "b", tags=["url:http|x"])
            self.assertEqual(raised.exception.status, Status.UNFIT_TAGS)
        with SpyStatsClient(raises=True, strict=True) as client:
            client.event("a:b", "c|d", tags={"page": "home"})
            self.assertEqual(client.lines, ["_e{3,3}:a:b|c|d|#page:home"])
            self.assertRaises(StatusError, client.event, "a", "b", tags=["page:home"])

    def test_bad_calls_are_counted_and_send_nothing(self):
        calls = [
            lambda c: c.event("a", "b", priority="high"), lambda c: c.event("a", "b", alert_type=3),
            lambda c: c.event("a", "b", tags="env:prod"), lambda c: c.event(b"a", "b"), lambda c: c.event("a", "\ud800"),
            lambda c: c.event("a", "b", timestamp=-1), lambda c: c.event("a", "b", timestamp="now"),
            lambda c: c.event("a", "b", hostname="a|b"), lambda c: c.service_check("a", 4), lambda c: c.service_check("a", -1),
            lambda c: c.service_check("a", 2 ** 70), lambda c: c.service_check("a", "ok"), lambda c: c.service_check("a|b", 0),
            lambda c: c.service_check("a", 0, message="a|b"),
        ]
        with self.client() as client:
            for call in calls:
                call(client)
            self.assertEqual(client.counts()["bad"], len(calls))
            self.assertEqual([str(fault) for fault in self.faults[:2]],
                             ["'high' is no priority (low, normal)", "3 is no alert type (error, warning, info, success)"])
        self.assertEqual(self.receiver.packets(), [])

    def test_a_closed_client_keeps_nothing(self):
        client = self.client()
        client.close()
        client.event("a", "b")
        client.service_check("a", 0)
        self.assertEqual([fault.status for fault in self.faults], [Status.NO_CLIENT] * 2)


if __name__ == "__main__":
    unittest.main()
