# SPDX-License-Identifier: Apache-2.0 OR MIT
"""A receiver of datagrams, and tests with a client that sends to it."""
import socket
import subprocess
import sys
import unittest

from statsd_proved import StatsClient


class Receiver:
    """A socket on the loopback address, or of another family."""

    def __init__(self, family=socket.AF_INET, address=("127.0.0.1", 0)):
        self.socket = socket.socket(family, socket.SOCK_DGRAM)
        self.socket.bind(address)
        self.address = self.socket.getsockname()

    def packets(self, seconds=0.0):
        """Returns the packets that have arrived. It waits for the first one for this many seconds."""
        found = []
        self.socket.settimeout(seconds or 0.0)
        try:
            while True:
                found.append(self.socket.recv(65536).decode())
                self.socket.settimeout(0.0)
        except (BlockingIOError, TimeoutError):
            return found

    def lines(self, seconds=0.0):
        """Returns the lines of these packets."""
        return [line for packet in self.packets(seconds) for line in packet.splitlines()]


class Recorder:
    """Takes the place of a client's socket. It stores each packet, or refuses it with `fault`."""

    def __init__(self):
        self.sent = []
        self.fault = None

    def sendto(self, packet, address):
        if self.fault is not None:
            raise self.fault
        self.sent.append(packet)

    def lines(self):
        return [line for packet in self.sent for line in packet.decode().splitlines()]

    def close(self):
        pass


def begun(program, *arguments, switch_interval):
    """Starts a program in Python whose threads take turns that often."""
    program = f"import sys; sys.setswitchinterval({switch_interval});{program}"
    return subprocess.Popen([sys.executable, "-c", program, *map(str, arguments)], stderr=subprocess.PIPE, text=True)


class ClientTest(unittest.TestCase):
    """Tests with a receiver, and with the errors that clients reported."""

    def setUp(self):
        self.receiver = Receiver()
        self.addCleanup(self.receiver.socket.close)
        self.faults = []

    def client(self, **words):
        """Returns a client that sends to the receiver and starts no thread."""
        words = {"flush_every": None, "on_error": self.faults.append, **words}
        client = StatsClient(*self.receiver.address[:2], **words)
        self.addCleanup(client.close)
        return client

    def sent_by(self, calls, **words):
        """Makes these calls of a client, asserts that they report no error, and returns the lines that were sent."""
        with self.client(**words) as client:
            calls(client)
        self.assertEqual(self.faults, [])
        return self.receiver.lines()
