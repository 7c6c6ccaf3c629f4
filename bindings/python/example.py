# SPDX-License-Identifier: Apache-2.0 OR MIT
"""Sends metrics to a socket of its own on the loopback address, and prints the datagrams that arrive, the errors that
are reported, and the counts."""
import datetime
import socket

from statsd_proved import StatsClient

server = socket.socket(socket.AF_INET, socket.SOCK_DGRAM)
server.bind(("127.0.0.1", 0))
server.setblocking(False)


def report(fault):
    print(f"told: {type(fault).__name__}: {fault}")


def received():
    try:
        while True:
            packet = server.recv(65536)
            print(f"datagram of {len(packet)} bytes\n{packet.decode()}")
    except BlockingIOError:
        pass


with StatsClient(*server.getsockname(), prefix="my.service", maxudpsize=64, tags={"env": "prod"}, flush_every=60,
                 on_error=report) as client:
    client.incr("visits", tags={"page": "home", "shard": 7})
    client.decr("visits", 2.5)
    client.timing("took", datetime.timedelta(milliseconds=320))
    client.gauge("load", -1.25)
    client.gauge("load", 3, delta=True)
    client.histogram("sizes", [1, 22, 0.5])
    client.distribution("sizes", 7, container="4f9c", timestamp=1_700_000_000)
    client.set("users", "alice")
    client.raw("own:1|c")
    client.incr("a.key.that.is.too.long.for.a.packet.of.sixty.four.bytes.and.more")
    client.raw("x" * 70_000)  # no packet of UDP holds it
    client.gauge("load", float("nan"))
    client.incr("visits", 2**64)
    with client.pipeline() as pipe:
        pipe.incr("one")
        pipe.incr("two")
received()
print(client.counts())
