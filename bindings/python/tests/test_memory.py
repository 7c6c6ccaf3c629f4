# SPDX-License-Identifier: Apache-2.0 OR MIT
"""Whether calls free the memory that they allocate."""
import gc
import tracemalloc
import unittest

from receiver import ClientTest

TURNS = 2000
TAGS = {f"key{number}": number + 0.5 for number in range(20)}


class Memory(ClientTest):
    def calls(self, client):
        client.incr("a", 2 ** 63, tags=TAGS, container="id", timestamp=7)
        client.gauge("a", -1.5, tags=["k", ("a", 1.5)])
        client.gauge("a", 1.5, delta=True, container=1.25)
        client.set("a", "text" * 50, tags=TAGS)
        client.histogram("a", list(range(20)))
        client.raw("x" * 600)
        client.incr("a", 2 ** 65)
        client.incr("a", tags={**TAGS, "k": b""})
        client.incr("a", tags=[("k", 1.5, 2)])
        client.histogram("a", [1.5] * 20 + [None])
        client.incr("a", container=b"")
        client.incr("\ud800", tags=TAGS)
        with client.pipeline() as pipe:
            pipe.incr("a", tags=TAGS)

    def test_nothing_is_left(self):
        client = self.client(on_error=None, tags={"n": 7})
        tracemalloc.start()
        self.addCleanup(tracemalloc.stop)
        with self.assertLogs("statsd_proved"):
            for _ in range(100):
                self.calls(client)
        gc.collect()
        before, _ = tracemalloc.get_traced_memory()
        for _ in range(TURNS):
            self.calls(client)
        client.flush()
        gc.collect()
        after, _ = tracemalloc.get_traced_memory()
        self.assertLess(after - before, 4 * TURNS)
        self.assertEqual(client.counts()["bad"], (TURNS + 100) * 6)


if __name__ == "__main__":
    unittest.main()
