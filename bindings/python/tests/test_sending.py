# SPDX-License-Identifier: Apache-2.0 OR MIT
"""What is sent, when it is sent, and what happens if the socket refuses a packet."""
import contextlib
import copy
import errno
import gc
import math
import pickle
import socket
import tempfile
import threading
import time
import unittest
from unittest import mock

from receiver import ClientTest, Receiver, Recorder
from statsd_proved import StatsClient


class NoMemory:
    """Takes the place of a client's packer. It finds no memory for a packet, until `finds` is set."""

    def __init__(self, packer):
        self.packer, self.finds = packer, False

    def __getattr__(self, name):
        return getattr(self.packer, name)

    def take(self):
        if not self.finds:
            raise MemoryError
        return self.packer.take()


class When(ClientTest):
    def test_a_full_packet(self):
        client = self.client(maxudpsize=16)
        for _ in range(3):
            client.incr("abcd")
        self.assertEqual(self.receiver.packets(), ["abcd:1|c\n"] * 2)
        client.flush()
        self.assertEqual(self.receiver.packets(), ["abcd:1|c\n"])

    def test_with_and_close_twice(self):
        with self.client() as client:
            client.incr("a")
            self.assertEqual(self.receiver.packets(), [])
        self.assertEqual(self.receiver.packets(), ["a:1|c\n"])
        client.close()
        self.assertEqual(self.faults, [])
        self.assertEqual(client.counts(), {"held": 0, "waiting": 0, "made": 1, "sent": 1, "dropped": 0, "refused": 0, "bad": 0})

    def test_a_client_that_is_let_go(self):
        StatsClient(*self.receiver.address).incr("a")
        gc.collect()
        self.assertEqual(self.receiver.packets(), ["a:1|c\n"])

    def test_after_a_while(self):
        client = self.client(flush_every=0.5)
        client.incr("a")
        self.assertEqual(self.receiver.packets(), [])
        self.assertEqual(self.receiver.packets(30), ["a:1|c\n"])

    def test_with_each_call(self):
        client = self.client(flush_every=0)
        client.incr("a")
        self.assertEqual(self.receiver.packets(), ["a:1|c\n"])

    def test_a_period_that_is_none(self):
        for period in (-1, -0.001, math.nan, -math.inf, "1", b"1"):
            with self.subTest(period=period), self.assertRaisesRegex(ValueError, "flush_every is .* seconds that is 0 or more"):
                self.client(flush_every=period)

    def test_a_period_that_is_longer_than_a_thread_can_wait(self):
        for period in (math.inf, 1e10, 10 ** 300):
            client = self.client(flush_every=period)
            client.incr("a")
            time.sleep(0.02)
            self.assertTrue(any(thread.name == "statsd_proved" for thread in threading.enumerate()))
            client.close()
            self.assertEqual((self.receiver.lines(), self.faults), (["a:1|c"], []))

    def test_a_thread_that_can_not_be_started_once(self):
        client = self.client(flush_every=0.01)
        with mock.patch.object(threading.Thread, "start", side_effect=RuntimeError):
            client.incr("a")
        self.assertEqual([type(fault) for fault in self.faults], [RuntimeError])
        client.incr("b")
        self.assertEqual(self.receiver.lines(30), ["a:1|c", "b:1|c"])

    def test_a_client_that_could_not_be_made(self):
        for port in (0, -1, 65536, 70_000):
            self.assertRaises(ValueError, StatsClient, "127.0.0.1", port)
        self.assertRaises(UnicodeEncodeError, StatsClient, "unix:///\ud800")

    def test_a_client_is_not_copied(self):
        client = self.client()
        for call in (copy.copy, copy.deepcopy, pickle.dumps):
            self.assertRaisesRegex(TypeError, "can't be copied", call, client)
        client.incr("a")
        client.flush()
        self.assertEqual((self.receiver.lines(), self.faults), (["a:1|c"], []))


class Where(ClientTest):
    def test_ipv6(self):
        try:
            receiver = Receiver(socket.AF_INET6, ("::1", 0))
        except OSError as fault:
            self.skipTest(f"this machine has no IPv6: {fault}")
        with StatsClient("::1", receiver.address[1], ipv6=True) as client:
            client.incr("a")
        self.assertEqual(receiver.packets(), ["a:1|c\n"])
        receiver.socket.close()

    def test_unix(self):
        with tempfile.TemporaryDirectory() as folder:
            path = folder + "/statsd.socket"
            client = self.enterContext(StatsClient("unix://" + path, on_error=self.faults.append))
            client.incr("early")
            client.flush()  # nobody is there
            self.assertEqual([fault.errno for fault in self.faults], [errno.ENOENT])
            receiver = Receiver(socket.AF_UNIX, path)
            client.incr("late")
            client.flush()
            self.assertEqual(receiver.packets(), ["early:1|c\n", "late:1|c\n"])
            self.assertEqual(client.counts()["refused"], 1)
            receiver.socket.close()

    def test_unix_that_takes_no_more(self):
        with tempfile.TemporaryDirectory() as folder:
            receiver = Receiver(socket.AF_UNIX, folder + "/statsd.socket")
            client = self.enterContext(StatsClient("unix://" + receiver.address, maxudpsize=8, packets=2000,
                                                   on_error=self.faults.append))
            for number in range(1500):
                client.gauge("a", number)
            self.assertEqual({fault.errno for fault in self.faults}, {errno.EAGAIN})
            lines = receiver.lines()
            while len(lines) < 1500:
                client.flush()
                more = receiver.lines(30)
                self.assertNotEqual(more, [])
                lines += more
            self.assertEqual(lines, [f"a:{number}|g" for number in range(1500)])
            receiver.socket.close()


class Refusals(ClientTest):
    def refusing(self, **words):
        client = self.client(**words)
        client._socket.close()
        client._socket = Recorder()
        client._socket.fault = OSError(errno.ENETUNREACH, "no way")
        return client

    def test_a_line_that_is_too_long_for_a_packet_of_udp(self):
        client = self.client()
        client.incr("before")
        client.raw("x" * 70_000)
        for _ in range(100):
            client.incr("after")
        client.flush()
        self.assertEqual(self.receiver.lines(), ["before:1|c"] + ["after:1|c"] * 100)
        self.assertEqual([fault.errno for fault in self.faults], [errno.EMSGSIZE])
        counts = client.counts()
        self.assertEqual((counts["refused"], counts["dropped"], counts["waiting"]), (1, 1, 0))

    def test_a_line_that_is_longer_than_a_packet(self):
        self.assertEqual(self.sent_by(lambda c: c.incr("x" * 3000)), ["x" * 3000 + ":1|c"])

    def test_a_refused_packet_waits(self):
        client = self.refusing(maxudpsize=8)
        for name in "abc":
            client.incr(name)
        self.assertEqual(client.counts(), {"held": 6, "waiting": 2, "made": 2, "sent": 0, "dropped": 0, "refused": 2, "bad": 0})
        self.assertEqual([fault.errno for fault in self.faults], [errno.ENETUNREACH] * 2)
        client._socket.fault = None
        client.incr("d")
        self.assertEqual(client._socket.lines(), ["a:1|c", "b:1|c", "c:1|c"])

    def test_no_call_asks_a_socket_that_refuses_unless_there_is_a_new_packet(self):
        client = self.refusing(maxudpsize=100)
        for _ in range(30):
            client.incr("a")
        self.assertEqual(client.counts()["refused"], client.counts()["made"])

    def test_the_oldest_is_dropped(self):
        client = self.refusing(maxudpsize=8, packets=2)
        for name in "abcdefg":
            client.incr(name)
        client._socket.fault = None
        client.flush()
        self.assertEqual(client._socket.lines(), ["a:1|c", "e:1|c", "f:1|c", "g:1|c"])
        self.assertEqual(client.counts()["dropped"], 3)

    def test_close_drops_what_is_refused(self):
        client = self.refusing(maxudpsize=8)
        client.incr("a")
        client.incr("b")
        client.close()
        counts = client.counts()
        self.assertEqual((counts["dropped"], counts["sent"], counts["waiting"], counts["refused"]), (2, 0, 0, 3))

    def test_raises(self):
        client = self.refusing(raises=True)
        client.incr("a")
        self.assertRaises(OSError, client.flush)
        client._socket.fault = None
        client.flush()
        self.assertEqual(client._socket.lines(), ["a:1|c"])

    def test_a_call_that_raises_for_a_packet_keeps_its_line(self):
        client = self.refusing(raises=True, maxudpsize=8)
        client.incr("a")
        for name in "bc":
            self.assertRaises(OSError, client.incr, name)
        client._socket.fault = None
        client.flush()
        self.assertEqual(client._socket.lines(), ["a:1|c", "b:1|c", "c:1|c"])

    def test_packets_for_which_there_is_no_memory_wait(self):
        client = self.client(maxudpsize=8)
        pipe = client.pipeline()
        for metrics in (client, pipe):
            metrics._packer = NoMemory(metrics._packer)
            for name in "abc":
                metrics.incr(name)
        client.flush()
        pipe.send()
        self.assertEqual({type(fault) for fault in self.faults}, {MemoryError})
        self.assertEqual((self.receiver.lines(), client.counts()["bad"]), ([], 0))
        client._packer.finds = pipe._packer.finds = True
        client.flush()
        pipe.send()
        self.assertEqual(self.receiver.lines(), ["a:1|c", "b:1|c", "c:1|c"] * 2)

    def test_the_thread_never_raises(self):
        client = self.refusing(raises=True, flush_every=0.01)
        client.incr("a")
        end = time.monotonic() + 30
        while client.counts()["refused"] < 3 and time.monotonic() < end:
            time.sleep(0.01)
        self.assertGreaterEqual(client.counts()["refused"], 3)
        client._socket.fault = None

    def test_a_signal_handler_may_call_the_client_that_it_interrupts(self):
        client = self.refusing(maxudpsize=8)

        def interrupted(packet, address):
            del client._socket.sendto
            client.incr("c")
            client.incr("d")
            client.flush()
            raise client._socket.fault
        client._socket.sendto = interrupted
        client.incr("a")
        client.incr("b")
        client._socket.fault = None
        client.flush()
        self.assertEqual(client._socket.lines(), ["a:1|c", "b:1|c", "c:1|c", "d:1|c"])
        counts = client.counts()
        self.assertEqual((counts["made"], counts["sent"], counts["dropped"], counts["waiting"]), (4, 4, 0, 0))

    def test_an_error_that_is_raised_leaves_no_cycle(self):
        client = self.refusing(raises=True, maxudpsize=8)
        pipe = client.pipeline()
        calls = (lambda: client.incr("a", math.nan), lambda: client.decr("a", None), lambda: client.raw(1),
                 lambda: pipe.incr("a", None), lambda: (client.incr("a"), client.incr("b")), client.flush)
        gc.collect()
        gc.disable()
        self.addCleanup(gc.enable)
        for call in calls:
            for _ in range(10):
                with contextlib.suppress(ValueError, TypeError, OSError):
                    call()
                self.faults.clear()
                client._socket.fault.__traceback__ = None
            self.assertEqual(gc.collect(), 0)
        client._socket.fault = None

    def test_the_first_error_is_logged(self):
        client = self.refusing(on_error=None)
        with self.assertLogs("statsd_proved") as logged:
            client.incr("a", "text")
            client.incr("a", None)
            client.incr("a")
            client.flush()
        self.assertEqual(len(logged.records), 1)
        self.assertIn("'text' is not a number", logged.output[0])
        self.assertEqual((client.counts()["bad"], client.counts()["refused"]), (2, 1))

    def test_on_error_may_call_the_client(self):
        client = self.refusing()
        client._on_error = lambda fault: (setattr(client._socket, "fault", None), client.incr("told"), client.flush())
        client.incr("a")
        client.flush()
        self.assertEqual(client._socket.lines(), ["a:1|c", "told:1|c"])


if __name__ == "__main__":
    unittest.main()
