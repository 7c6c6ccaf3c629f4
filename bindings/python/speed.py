# SPDX-License-Identifier: Apache-2.0 OR MIT
"""speed CALLS [WORK CLIENT]: prints how many nanoseconds of processor time a call takes, for this client, for a pipeline of it,
for a client that adds lines up and, if python3-statsd is installed, for statsd.StatsClient and its pipeline. The figures are
medians of 11 turns, with the least and the greatest. The clients send to a UDP socket on the loopback address. With WORK and
CLIENT, as `incr this` or `gauge "statsd pipeline"`, these calls are made once, for a program that counts instructions."""
import decimal
import socket
import statistics
import sys
import time

import statsd_proved

try:
    import statsd
except ImportError:
    statsd = None

TURNS = 11
TAGS = {"host": "web03.example.com", "region": "us-east-2", "page": "home"}
DECIMALS = [decimal.Decimal(number) / 100 for number in range(1000)]
TAGGED = "some.counter.web03.example.com.us-east-2.home"
CALLS = {
    "incr": lambda client, i: client.incr("some.counter", i),
    "timing": lambda client, i: client.timing("some.timer", i * 0.37),
    "gauge": lambda client, i: client.gauge("some.gauge", i * 0.37),
    "decimal": lambda client, i: client.gauge("some.gauge", DECIMALS[i % len(DECIMALS)]),
    "tags": lambda client, i: client.incr("some.counter", i, tags=TAGS),
    "name": lambda client, i: client.incr(TAGGED, i),  # the same texts in the name, which statsd has no tags for
}


def nanos(client, call, count):
    """Returns the nanoseconds of a call, including the sending of its packets."""
    start = time.process_time_ns()
    for i in range(count):
        call(client, i)
    getattr(client, "flush", getattr(client, "send", int))()
    return (time.process_time_ns() - start) / count


def shown(figures):
    return f"{statistics.median(figures):.0f} ({min(figures):.0f}..{max(figures):.0f})"


def clients_of(address):
    """Returns the clients by their names."""
    clients = {"this": statsd_proved.StatsClient(*address, prefix="some.prefix")}
    clients["pipeline"] = clients["this"].pipeline()
    clients["adding up"] = statsd_proved.StatsClient(*address, prefix="some.prefix", aggregate=True)
    if statsd is not None:
        clients["statsd"] = statsd.StatsClient(*address, prefix="some.prefix")
        clients["statsd pipeline"] = clients["statsd"].pipeline()
    return clients


def main(count, work=None, whose=None):
    with socket.socket(socket.AF_INET, socket.SOCK_DGRAM) as server:
        server.bind(("127.0.0.1", 0))
        clients = clients_of(server.getsockname())
        if work is not None:
            nanos(clients[whose], CALLS[work], count)
            return
        for name, call in CALLS.items():
            figures = {whose: [] for whose in clients if name != "tags" or not whose.startswith("statsd")}
            for _ in range(TURNS):
                for whose in figures:
                    figures[whose].append(nanos(clients[whose], call, count))
            print(name, "; ".join(f"{whose} {shown(those)}" for whose, those in figures.items()))


if __name__ == "__main__":
    main(int(sys.argv[1]), *sys.argv[2:])
