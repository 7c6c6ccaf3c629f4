# SPDX-License-Identifier: Apache-2.0 OR MIT
"""Values, texts and tags of which no line can be made."""
import datetime
import decimal
import enum
import fractions
import math
import pathlib
import random
import re
import unittest

from receiver import ClientTest
from statsd_proved import SpyStatsClient, StatsClient, Status, StatusError

HEADER = pathlib.Path(__file__).resolve().parents[3] / "include" / "cadence.h"


class Odd:
    """A number whose text runs code."""

    def __init__(self, text, run=lambda: None, number=math.nan):
        self.text, self.run, self.number = text, run, number

    def __float__(self):
        return self.number

    def __str__(self):
        self.run()
        return self.text


class Values(ClientTest):
    def test_whole_numbers_do_not_wrap(self):
        least, most = -2 ** 63, 2 ** 64 - 1
        self.assertEqual(self.sent_by(lambda c: [c.incr("x", value) for value in (2 ** 63, least, most)]),
                         [f"x:{2 ** 63}|c", f"x:{least}|c", f"x:{most}|c"])

    def refuses(self, kind, *calls):
        """Asserts that no call keeps a line or raises, that each is counted, and that each reports an error of this
        kind, which a client with `raises` raises."""
        for call in calls:
            with self.subTest(call=call), self.client() as client, self.client(raises=True) as strict:
                self.faults.clear()
                call(client)
                self.assertEqual([type(fault) for fault in self.faults], [kind])
                self.assertEqual(client.counts()["bad"], 1)
                with self.assertRaises(kind):
                    call(strict)
            self.assertEqual(self.receiver.lines(), [])

    def test_whole_numbers_past_64_bits(self):
        self.refuses(OverflowError, lambda c: c.incr("x", 2 ** 64 + 5), lambda c: c.incr("x", -2 ** 63 - 1),
                     lambda c: c.gauge("x", 10 ** 30), lambda c: c.set("x", 2 ** 64), lambda c: c.incr("x", timestamp=-1),
                     lambda c: c.incr("x", timestamp=2 ** 64))

    def test_floats_that_do_not_fit(self):
        for error, values in ((ValueError, (math.nan, math.inf, -math.inf)),
                              (StatusError, (math.nextafter(2.0 ** 127, math.inf), -1e300))):
            self.refuses(error, *(lambda c, call=call, value=value: getattr(c, call)("x", value)
                                  for call in ("incr", "gauge", "timing", "histogram") for value in values))
        self.refuses(ValueError, *(lambda c, value=value: c.histogram("x", [1, value]) for value in (2 ** 63, 1e19, math.nan)))

    def test_large_floats(self):
        most = 2.0 ** 127
        self.assertEqual(self.sent_by(lambda c: [c.gauge("x", 1e19), c.gauge("x", -1e19), c.gauge("x", 1e19, delta=True),
                                                 c.gauge("x", -1e19, delta=True), c.incr("x", most), c.timing("x", 1e38)]),
                         ["x:10000000000000000000|g", "x:0|g", "x:-10000000000000000000|g", "x:+10000000000000000000|g",
                          "x:-10000000000000000000|g", "x:170141183460469230000000000000000000000|c", f"x:1{38 * '0'}|ms"])

    def test_small_numbers_are_rounded_to_30_places(self):
        zeros = 29 * "0"
        for number in float, decimal.Decimal:
            self.assertEqual(self.sent_by(lambda c: [c.gauge("x", number(text), delta=True) for text in (
                "1e-7", "5e-324", "1e-30", "1.4e-30", "1.5e-30", "-1.5e-30", "4e-31", "5e-31", "9.99e-30", "1e18")]),
                ["x:+0.0000001|g", "x:+0|g", f"x:+0.{zeros}1|g", f"x:+0.{zeros}1|g", f"x:+0.{zeros}2|g", f"x:-0.{zeros}2|g", "x:+0|g",
                 f"x:+0.{zeros}1|g", f"x:+0.{zeros[1:]}1|g", "x:+1000000000000000000|g"])
        self.assertEqual(self.sent_by(lambda c: [c.gauge("x", value) for value in (-0.0, 2.7755575615628914e-17)]),
                         ["x:0|g", "x:0.000000000000000027755575615629|g"])

    def test_milliseconds_are_rounded_to_six_places(self):
        self.assertEqual(self.sent_by(lambda c: [c.timing("x", value) for value in (5e-324, 0.00000049, 0.0000005, 1.2345678)]),
                         ["x:0|ms", "x:0|ms", "x:0.000001|ms", "x:1.234568|ms"])

    def test_values_that_are_no_numbers(self):
        self.refuses(TypeError, lambda c: c.incr("x", None), lambda c: c.decr("x", "5"), lambda c: c.gauge("x", "5"),
                     lambda c: c.set("x", None), lambda c: c.timing("x", object()), lambda c: c.incr(5),
                     lambda c: c.incr("x", rate="1"), lambda c: c.raw(b"x:1|c"), lambda c: c.incr("x", timestamp="now"))

    def test_decimals_that_are_no_numbers(self):
        for text in ("NaN", "sNaN", "Infinity"):
            self.refuses(ValueError, lambda c: c.incr("x", decimal.Decimal(text)), lambda c: c.gauge("x", decimal.Decimal(text)))
        self.refuses(decimal.InvalidOperation, lambda c: c.decr("x", decimal.Decimal("sNaN")))

    def test_decimals_are_rounded_as_python_rounds_them(self):
        made, context, seen = random.Random(7), decimal.Context(prec=1000, rounding=decimal.ROUND_HALF_UP), {True: 0, False: 0}
        with SpyStatsClient(raises=True) as client:
            for _ in range(3000):
                digits = "".join(made.choice(made.choice(("0123456789", "09", "9"))) for _ in range(made.choice((1, 3, 18, 20, 33))))
                point = made.randrange(len(digits) + 1)
                text = f"{made.choice('+-')}{digits[:point]}.{digits[point:]}e{made.choice((0, 1, 2, 15, -1, -3, -12, -30))}"
                whole = context.quantize(decimal.Decimal(text), decimal.Decimal("1e-30"))
                printed = f"{whole:f}".rstrip("0").rstrip(".")
                mantissa = int(printed.replace(".", ""))
                fits = -2 ** 63 <= mantissa < 2 ** 63 or ("." not in printed and 0 <= mantissa < 2 ** 64)
                seen[fits] += 1
                try:
                    client.gauge("x", decimal.Decimal(text), delta=True)
                    line = client.lines[-1]
                except ValueError:
                    line = None
                self.assertEqual(line, f"x:{'' if mantissa < 0 else '+'}{printed if mantissa else 0}|g" if fits else None, text)
        self.assertGreater(min(seen.values()), 300)

    def test_lists_without_a_value(self):
        self.refuses(ValueError, *(lambda c, call=call, value=value: getattr(c, call)("x", value)
                                   for call in ("histogram", "distribution", "timing") for value in ([], (), range(0))))

    def test_numbers_of_other_types(self):
        self.assertEqual(self.sent_by(lambda c: [c.gauge("x", value, delta=True) for value in (
            fractions.Fraction(1, 2), Odd("<odd>", number=2.5), Odd("1\0junk", number=3.5), Odd("1E 2", number=4.5),
            Odd("", number=5.5), Odd("1E2", number=6.5), Odd("-1.50", number=7.5), decimal.Decimal("0.12345678901234567"),
            decimal.Decimal("1e-200000"), decimal.Decimal("1." + 500 * "0"), decimal.Decimal("0e99"))]),
            ["x:+0.5|g", "x:+2.5|g", "x:+3.5|g", "x:+4.5|g", "x:+5.5|g", "x:+100|g", "x:-1.5|g", "x:+0.12345678901234567|g",
             "x:+0|g", "x:+1|g", "x:+0|g"])
        self.refuses(TypeError, lambda c: c.incr("x", 1j))
        self.refuses(ValueError, *(lambda c, text=text: c.incr("x", Odd(text)) for text in ("1E", "1E+", "1.2.3", "--1", "1-", "E1")),
                     *(lambda c, text=text: c.incr("x", decimal.Decimal(text)) for text in (
                         "123456789012345678.123", "9223372036854775808.5", "18446744073709551616", "1e200000", "1e9999999")),
                     lambda c: c.incr("x", fractions.Fraction(10 ** 40)))

    def test_whole_numbers_of_other_types_have_64_bits(self):
        class Index:
            """As numpy.uint64, and as an array without a dimension, which has no length."""
            def __index__(self): return 2 ** 64 - 1
            def __getitem__(self, place): raise IndexError
            def __len__(self): raise TypeError("unsized")

        class Array(Index):
            """As an array of one float."""
            def __index__(self): raise TypeError("no index")
            def __str__(self): return "5.5"
            def __float__(self): return 5.5
        most = decimal.Decimal(2 ** 64 - 1)
        self.assertEqual(self.sent_by(lambda c: [c.gauge("x", value) for value in (Index(), most, decimal.Decimal(2 ** 63), Array())]),
                         [f"x:{2 ** 64 - 1}|g", f"x:{2 ** 64 - 1}|g", f"x:{2 ** 63}|g", "x:5.5|g"])
        self.refuses(TypeError, lambda c: c.histogram("x", bytearray(b"12")), lambda c: c.incr("x", bytearray(b"12")))

    def test_whole_seconds_of_a_time_are_sent(self):
        class Index:
            def __index__(self): return 8
        self.assertEqual(self.sent_by(lambda c: [c.incr("x", timestamp=time) for time in (7, 7.9, True, Index())]),
                         ["x:1|c|T7", "x:1|c|T7", "x:1|c|T1", "x:1|c|T8"])
        self.refuses(OverflowError, lambda c: c.incr("x", timestamp=-1), lambda c: c.incr("x", timestamp=2 ** 64),
                     lambda c: c.incr("x", timestamp=-1.5), lambda c: c.incr("x", timestamp=math.inf))
        self.refuses(ValueError, lambda c: c.incr("x", timestamp=math.nan))

    def test_objects_are_printed_in_tags(self):
        class Color(enum.Enum):
            RED = 1
        day = datetime.date(2026, 11, 29)
        self.assertEqual(self.sent_by(lambda c: c.incr("x", tags={"a": None, "b": Color.RED, "c": pathlib.Path("/d"), "e": day})),
                         ["x:1|c|#a:None,b:Color.RED,c:/d,e:2026-11-29"])

    def test_tags_that_are_none(self):
        self.refuses(TypeError, *(lambda c, tags=tags: c.incr("x", tags=tags)
                                  for tags in ("a:b", b"a", 7, {"a": b"b"}, {"a": bytearray(b"b")}, {"a": ["b"]}, 
                                               {"a": {1}}, {"a": {"b": 1}}, [("a", "b", "c")], [b"a"])),
                     lambda c: c.incr("x", container=b"id"))

    def test_texts_that_are_not_unicode(self):
        self.refuses(UnicodeEncodeError, lambda c: c.incr("\ud800"), lambda c: c.set("x", "\ud800"), lambda c: c.raw("\ud800"),
                     lambda c: c.incr("x", tags=["\ud800"]), lambda c: c.incr("x", container="\ud800"))

    def test_a_number_may_call_the_client(self):
        with self.client() as client:
            tags = [Odd("1", lambda: client.incr("inner", tags={"k": 2})), "plain"]
            client.incr("outer", tags=tags)
            given = {"a": Odd("2", lambda: given.clear()), "b": "c"}
            client.incr("outer", tags=given)
        self.assertEqual(self.receiver.lines(), ["inner:1|c|#k:2", "outer:1|c|#1,plain", "outer:1|c|#a:2,b:c"])
        self.assertEqual(self.faults, [])

    def test_an_error_of_the_callers_own(self):
        def fail():
            raise KeyError("own")
        self.refuses(KeyError, lambda c: c.incr("x", tags=[Odd("1", fail)]), lambda c: c.incr("x", Odd("1", fail)))

    def test_on_error_that_raises_is_logged(self):
        def fail(fault):
            raise RuntimeError("on_error")
        with self.client(on_error=fail) as client, self.assertLogs("statsd_proved"):
            client.incr("x", math.nan)

    def test_without_on_error(self):
        with self.client(on_error=None) as client, self.assertLogs("statsd_proved"):
            client.incr("x", math.nan)
            self.assertEqual(client.counts()["bad"], 1)


class Statuses(ClientTest):
    def test_a_closed_client(self):
        client = self.client()
        client.close()
        client.incr("x")
        self.assertIsInstance(self.faults[0], StatusError)
        self.assertIs(self.faults[0].status, Status.NO_CLIENT)
        self.assertEqual(str(self.faults[0]), "the client is closed (CADENCE_NO_CLIENT)")

    def test_too_few_packets(self):
        with self.assertRaises(StatusError) as told:
            StatsClient(*self.receiver.address, packets=1)
        self.assertIs(told.exception.status, Status.INVALID)

    def test_too_many_packets(self):
        with self.assertRaises(MemoryError):
            StatsClient(*self.receiver.address, packets=2 ** 60)

    def test_names_are_the_headers(self):
        found = re.findall(r"^    CADENCE_(\w+) = (\d+),?(?: +/\*|$)", HEADER.read_text().partition("/* What a client does")[0], re.M)
        self.assertEqual({name: int(value) for name, value in found}, {status.name: status.value for status in Status})


if __name__ == "__main__":
    unittest.main()
