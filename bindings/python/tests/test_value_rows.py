# SPDX-License-Identifier: Apache-2.0 OR MIT
"""The lines of members of sets, of changes of gauges, of gauges that may be below 0, and of calls with separators in their
texts, by the rows of values.rows."""
import pathlib
import unittest

from statsd_proved import SpyStatsClient, StatusError

BINDINGS = pathlib.Path(__file__).resolve().parents[2]
# an archive has the file beside this package, and the repository has it where its own tests read it
PLACES = BINDINGS / "values.rows", BINDINGS.parent / "crates/test_calls/data/values.rows"
ROWS = next((place for place in PLACES if place.exists()), PLACES[0])


def number(text):
    return float(text) if "." in text or text == "nan" else int(text)


def line_of(call):
    """Makes the call of a row, and returns its line, or `refused`."""
    strict, clean = call.startswith("strict "), call.startswith("clean ")
    call = call.removeprefix("strict ").removeprefix("clean ").replace("\\n", "\n")
    kind, key, value = (call.split(" ", 2) + [""])[:3]
    with SpyStatsClient("p", tags={"env": "prod"}, strict=strict, clean=clean, raises=True) as client:
        try:
            match kind:
                case "member":
                    client.set(key, value)
                case "count":
                    client.incr(key, int(value))
                case "tag":
                    client.incr("visits", tags={key: value})
                case "tag_value":
                    client.incr("visits", tags=[key])
                case "container":
                    client.incr("visits", container=key)
                case _:
                    client.gauge(key, number(value), delta=kind == "change")
        except (StatusError, ValueError):
            assert client.lines == []
            return "refused"
        return "\n".join(client.lines)


class Rows(unittest.TestCase):
    def test_each_row_is_sent_or_refused(self):
        rows = [row.split(" <- ") for row in ROWS.read_text().split("\n") if " <- " in row and not row.startswith("#")]
        self.assertGreaterEqual(len(rows), 70)
        for wanted, call in rows:
            # in Python a tag that is a text has a key up to its first colon, if the client cleans texts
            if call.startswith("clean tag_value ") and ":" in call:
                continue
            with self.subTest(call=call):
                self.assertEqual(line_of(call), wanted.replace("\\n", "\n"))


if __name__ == "__main__":
    unittest.main()
