# SPDX-License-Identifier: Apache-2.0 OR MIT
"""Calls whose types the code accepts, and calls whose types it refuses. mypy has to say the same: with --strict it fails if
a line that needs its `ignore` has none, or if a line that has one doesn't need it."""
import array
import collections
import datetime
import decimal
import pathlib
import types
import unittest

from statsd_proved import SpyStatsClient, StatsClient, Tags

TEXTS = {"a": "b"}
CHAIN: collections.ChainMap[str, str] = collections.ChainMap({}, TEXTS)
ACCEPTED: list[tuple[Tags, str]] = [
    ({"a": "b"}, "|#a:b"), ({"a": 1.5}, "|#a:1.5"), ({"a": None, "b": pathlib.Path("/c")}, "|#a:None,b:/c"), (TEXTS, "|#a:b"), (types.MappingProxyType(TEXTS), "|#a:b"),
    (collections.UserDict(TEXTS), "|#a:b"), (CHAIN, "|#a:b"), (collections.OrderedDict(TEXTS), "|#a:b"),
    (["a:b", 7], "|#a:b,7"), ([("a", "b")], "|#a:b"), (("a", "b"), "|#a,b"), (collections.deque(["a"]), "|#a"), ((), ""),
]


class Hints(unittest.TestCase):
    def test_tags_that_are_accepted(self) -> None:
        for tags, text in ACCEPTED:
            with self.subTest(tags=tags), SpyStatsClient(raises=True) as client, SpyStatsClient(raises=True, tags=tags) as tagged:
                client.incr("x", tags=tags)
                tagged.incr("x")
                self.assertEqual((client.lines, tagged.lines), ([f"x:1|c{text}"],) * 2)

    def test_tags_that_are_refused(self) -> None:
        with SpyStatsClient(raises=True) as client:
            self.assertRaises(TypeError, lambda: client.incr("x", tags="a:b"))  # type: ignore[arg-type]
            self.assertRaises(TypeError, lambda: client.incr("x", tags=b"a"))  # type: ignore[arg-type]
            self.assertRaises(TypeError, lambda: client.incr("x", tagz={}))  # type: ignore[call-arg]
            self.assertRaises(TypeError, lambda: client.timer("x", tagz={}))  # type: ignore[call-arg]
            self.assertRaises(TypeError, lambda: client.timing("x", 1, tags="a:b"))  # type: ignore[arg-type]
            client.timer("x", tags="a:b")  # type: ignore[arg-type]
            self.assertRaises(TypeError, lambda: StatsClient.from_environment(tagz={}))  # type: ignore[call-arg]
            self.assertRaises(TypeError, lambda: client.incr("x", tags=[("a", "b", "c")]))  # type: ignore[list-item]
        self.assertRaises(TypeError, lambda: SpyStatsClient(tags="env:prod"))
        self.assertRaises(TypeError, lambda: SpyStatsClient(tags=b"env"))

    def test_values(self) -> None:
        with SpyStatsClient(raises=True) as client:
            client.histogram("x", range(3))
            client.histogram("x", collections.deque([1, 2.5]))
            client.timing("x", array.array("d", [0.5, 1.5]))
            client.timing("x", [datetime.timedelta(seconds=1), datetime.timedelta(microseconds=1500)])
            client.distribution("x", (decimal.Decimal("1.5"), 2))
            self.assertRaises(TypeError, lambda: client.histogram("x", "12"))  # type: ignore[arg-type]
            self.assertRaises(TypeError, lambda: client.histogram("x", b"12"))  # type: ignore[arg-type]
            self.assertEqual(client.lines, ["x:0:1:2|h", "x:1:2.5|h", "x:0.5:1.5|ms", "x:1000:1.5|ms", "x:1.5:2|d"])


if __name__ == "__main__":
    unittest.main()
