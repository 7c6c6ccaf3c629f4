# SPDX-License-Identifier: Apache-2.0 OR MIT
"""Where packets go: names that are looked up again, and agents that start again."""
import errno
import pathlib
import socket
import sys
import tempfile
import threading
import time
import unittest
from unittest import mock

from receiver import ClientTest, Receiver
from statsd_proved import StatsClient, address

BINDINGS = pathlib.Path(__file__).resolve().parents[2]
# an archive has the file beside this package, and the repository has it where its own test reads it
PLACES = BINDINGS / "addresses.rows", BINDINGS.parent / "crates/test_calls/data/addresses.rows"
ROWS = next((place for place in PLACES if place.exists()), PLACES[0])
REAL = socket.getaddrinfo


class Names:
    """Takes the place of the system's resolver and of its clock. `found` are the addresses of the one name that there is,
    or an error."""

    def __init__(self, *found):
        self.found = found
        self.lookups = 0
        self.now = 1000.0
        self.goes_on = threading.Event()
        self.goes_on.set()

    def getaddrinfo(self, host, port, family=0, kind=0, protocol=0, flags=0):
        if host != "agent.test":
            return REAL(host, port, family, kind, protocol, flags | socket.AI_NUMERICHOST)
        if flags & socket.AI_NUMERICHOST:
            raise socket.gaierror(socket.EAI_NONAME, "no number")
        self.lookups += 1
        self.goes_on.wait()
        if isinstance(self.found[0], Exception):
            raise self.found[0]
        rows = [row for text in self.found for row in REAL(text, port, 0, kind, 0, socket.AI_NUMERICHOST)]
        return [row for row in rows if family in (0, row[0])]


class OfNames(ClientTest):
    def names(self, *found):
        """Returns a resolver that takes the place of the system's."""
        names = Names(*found)
        self.enterContext(mock.patch.object(socket, "getaddrinfo", names.getaddrinfo))
        self.enterContext(mock.patch.object(address, "time", mock.Mock(monotonic=lambda: names.now)))
        return names

    def named(self, port, **words):
        client = StatsClient("agent.test", port, **{"flush_every": None, "on_error": self.faults.append, **words})
        self.addCleanup(client.close)
        return client

    def moved(self, client):
        """Flushes, and waits for the thread of the lookup that this begins, if it begins one."""
        client.flush()
        for thread in threading.enumerate():
            if thread is not threading.current_thread() and thread.name == "statsd_proved":
                thread.join(30)

    def test_the_address_of_each_row(self):
        rows = [row.split(" -> ") for row in ROWS.read_text().splitlines() if row and not row.startswith("#")]
        self.assertGreaterEqual(len(rows), 5)
        for given, wanted in rows:
            for first in (given, "127.0.0.9"):
                names = self.names(*first.split())
                try:
                    receiver = Receiver(socket.AF_INET6 if ":" in wanted else socket.AF_INET, (wanted, 0))
                except OSError:
                    continue  # this machine has no IPv6
                with self.subTest(given=given, first=first), self.named(receiver.address[1]) as client:
                    names.found = given.split()
                    names.now += 60
                    client.incr("a")
                    self.moved(client)
                    client.incr("b")
                    client.flush()
                    self.assertEqual(receiver.lines()[-1:], ["b:1|c"])
                receiver.socket.close()

    def test_ipv6_takes_no_other_address(self):
        names = self.names("127.0.0.1", "::1")
        client = self.named(8125, ipv6=True)
        self.assertEqual((client._address[0], client._socket.family, names.lookups), ("::1", socket.AF_INET6, 1))

    def test_a_name_is_looked_up_again_after_a_minute(self):
        other = Receiver(socket.AF_INET, ("127.0.0.2", self.receiver.address[1]))
        self.addCleanup(other.socket.close)
        names = self.names("127.0.0.1")
        client = self.named(other.address[1])
        names.found = ["127.0.0.2"]
        for after, lookups, receiver in ((59, 1, self.receiver), (1, 2, self.receiver), (0, 2, other), (59, 2, other)):
            names.now += after
            client.incr("a")
            self.moved(client)
            self.assertEqual((receiver.lines(), names.lookups), (["a:1|c"], lookups))
        names.found = [socket.gaierror(socket.EAI_AGAIN, "later")]
        names.now += 1
        for _ in range(3):
            client.incr("b")
            self.moved(client)
        self.assertEqual((other.lines(), names.lookups, self.faults), (["b:1|c"] * 3, 3, []))

    def test_a_name_is_looked_up_again_a_second_after_a_refusal(self):
        names = self.names("255.255.255.255")  # the system refuses to send there
        client = self.named(self.receiver.address[1])
        client.incr("a")
        client.flush()
        names.found = ["127.0.0.1"]
        names.now += 0.9
        self.moved(client)
        self.assertEqual((names.lookups, client.counts()["refused"]), (1, 2))
        names.now += 0.1
        self.moved(client)
        self.assertEqual(names.lookups, 2)
        client.flush()
        self.assertEqual(self.receiver.lines(), ["a:1|c"])
        self.assertIn({fault.errno for fault in self.faults}, ({errno.EACCES}, {errno.ENETUNREACH}))  # the latter without a network

    def test_a_service_starts_before_its_resolver(self):
        names = self.names(socket.gaierror(socket.EAI_AGAIN, "later"))
        client = self.named(self.receiver.address[1], maxudpsize=8, packets=3, raises=False)
        self.assertEqual([type(fault) for fault in self.faults], [socket.gaierror])
        for number in range(9):
            client.incr(f"a{number}")
        client.flush()
        counts = client.counts()
        self.assertEqual((counts["made"], counts["sent"], counts["waiting"], counts["dropped"]), (9, 0, 4, 5))
        self.assertEqual({type(fault) for fault in self.faults}, {socket.gaierror})
        names.found = ["127.0.0.1"]
        names.now += 1
        self.moved(client)
        client.flush()
        self.assertEqual((self.receiver.lines(), names.lookups), (["a0:1|c", "a6:1|c", "a7:1|c", "a8:1|c"], 2))
        self.named(8125, raises=True).incr("x")

    def test_no_call_waits_for_a_lookup(self):
        names = self.names("127.0.0.1")
        client = self.named(self.receiver.address[1], flush_every=0)
        names.goes_on.clear()
        self.addCleanup(names.goes_on.set)
        for _ in range(3):
            names.now += 60
            client.incr("a")
        self.assertEqual(self.receiver.lines(), ["a:1|c"] * 3)
        self.assertEqual(names.lookups, 2)  # the second one has not ended

    def test_without_a_thread_the_address_stays(self):
        names = self.names("127.0.0.1")
        client = self.named(self.receiver.address[1], flush_every=0)
        names.now += 60
        with mock.patch.object(threading.Thread, "start", side_effect=RuntimeError):
            client.incr("a")
        self.assertEqual((self.receiver.lines(), self.faults), (["a:1|c"], []))

    def test_a_client_that_is_gone_or_closed_gets_no_address(self):
        names = self.names("127.0.0.1")
        client = self.named(self.receiver.address[1], flush_every=0)
        names.goes_on.clear()
        names.now += 60
        client.incr("a")
        names.found = ["::1"]
        client.close()
        names.goes_on.set()
        self.moved(client)
        self.assertEqual((client._address[0], client._socket.fileno()), ("127.0.0.1", -1))

    def test_an_address_is_never_looked_up(self):
        for host in ("127.0.0.1", "127.1", "::1"):
            self.names("127.0.0.9")
            with StatsClient(host, 8125, flush_every=None) as client:
                self.assertIsNone(client._name)


class Restarts(ClientTest):
    def test_an_agent_starts_again_at_its_path(self):
        with tempfile.TemporaryDirectory() as folder:
            path = f"{folder}/statsd.sock"
            client = StatsClient(f"unix://{path}", flush_every=None, on_error=self.faults.append)
            for number in range(3):
                receiver = Receiver(socket.AF_UNIX, path)
                client.incr(f"a{number}")
                client.flush()
                self.assertEqual(receiver.lines(), ([f"b{number - 1}:1|c"] if number else []) + [f"a{number}:1|c"])
                receiver.socket.close()
                client.incr(f"b{number}")
                client.flush()  # nobody receives
                pathlib.Path(path).unlink()
            client.close()
        self.assertEqual([fault.errno for fault in self.faults], [errno.ECONNREFUSED] * 3 + [errno.ENOENT])


if __name__ == "__main__":
    unittest.main()
