# SPDX-License-Identifier: Apache-2.0 OR MIT
"""What the variables of the environment say, by the rows of environment.rows and others, and clients that are made of it."""
import os
import pathlib
import re
import socket
import tempfile
import unittest
from unittest import mock

from receiver import ClientTest, Receiver
from statsd_proved import StatsClient, VariableError, environment

BINDINGS = pathlib.Path(__file__).resolve().parents[2]
# an archive has the file beside this package, and the repository has it where its own test reads it
FOLDERS = BINDINGS, BINDINGS.parent / "crates/test_calls/data"
FOLDER = next((folder for folder in FOLDERS if (folder / "environment.rows").exists()), FOLDERS[0])
ORIGIN = b"DD_ORIGIN_DETECTION_ENABLED"


def value(text):
    """Returns the bytes of a text in a row."""
    def one(escape):
        return b"\n" if escape[0] == b"\\n" else bytes([int(escape[1], 16)])
    return re.sub(rb"\\n|\\x(..)", one, text.encode())


def variables(text):
    """Returns the variables of a row."""
    pairs = [pair.split("=", 1) for pair in text.split(" & ") if pair]
    return {name.encode(): value(given) for name, given in pairs}


def shown(given):
    """Returns what is read from variables, as a row has it."""
    host, port, size, only_ipv6 = environment.address(given)
    target = f"unix {host.removeprefix('unix://')}" if host.startswith("unix://") else f"udp {host} {port}"
    target = "nowhere" if host == environment.NOWHERE else target
    if size != (1432 if target.startswith("udp") else 8192):
        target += f" {size}"
    target += " over IPv6" if only_ipv6 else ""
    if prefix := environment.prefix(given):
        target += f" as {prefix}"
    tags = [tag if isinstance(tag, str) else "=".join(tag) for tag in environment.tags(given)]
    environment.container(given)
    return " | ".join([target, *tags]).encode()


def enrichment(given):
    """Returns the external data and the cardinality that are read from variables, as a row has them."""
    environment.tags(given)
    words = environment.external_data(given), environment.external_data(given, True), environment.cardinality(given)
    return " | ".join(word or "-" for word in words).encode()


def rows_of(name):
    """Returns the rows of a file."""
    return [row for row in (FOLDER / name).read_text().splitlines() if row and not row.startswith("#")]


class Rows(unittest.TestCase):
    def test_each_container_is_found(self):
        rows = rows_of("containers.rows")
        self.assertGreaterEqual(len(rows), 45)
        for row in rows:
            wanted, _, given = row.partition(" <- ")
            inode, _, text = given.partition(" ")
            with self.subTest(row=row), mock.patch.object(environment, "_groups", lambda: value(text)), \
                    mock.patch.object(environment, "_inode", lambda groups: int(inode)):
                wanted = None if wanted == "none" else wanted
                self.assertEqual(environment.container({ORIGIN: b"true"}), wanted)
                self.assertEqual(environment.container({}, True), wanted)
                self.assertEqual(environment.container({ORIGIN: b"0"}, True), wanted)
                for off in (b"", b"0", b"false", b"False", b"no"):
                    self.assertIsNone(environment.container({ORIGIN: off}))
                self.assertIsNone(environment.container({ORIGIN: b"1"}, False))
        with self.assertRaises(VariableError) as raised:
            environment.container({ORIGIN: b"on"})
        self.assertEqual(raised.exception.variable, ORIGIN.decode())

    def test_each_row_is_read(self):
        self.check("environment.rows", 400, shown)
        self.check("enrichments.rows", 70, enrichment)

    def check(self, name, least, said):
        """Tests what variables say by the rows of a file, which are at least so many."""
        rows = rows_of(name)
        self.assertGreaterEqual(len(rows), least)
        for row in rows:
            wanted, _, given = row.partition(" <- ")
            with self.subTest(row=row):
                if not wanted.startswith("refuses "):
                    self.assertEqual(said(variables(given)), value(wanted))
                    continue
                with self.assertRaises(VariableError) as raised:
                    said(variables(given))
                variable = wanted.removeprefix("refuses ")
                self.assertEqual(raised.exception.variable, variable)
                self.assertTrue(str(raised.exception).startswith(f"{variable} wants "), raised.exception)

    def test_an_error_says_what_its_variable_wants(self):
        for given, text in (("STATSD_PORT=0", "STATSD_PORT wants a port, as in STATSD_PORT=8125"),
                            ("DD_TAGS=:v", "DD_TAGS wants tags K:V or V, no bars or newlines, as in DD_TAGS=a:b,c"),
                            ("DD_ENV=\\xff", "DD_ENV wants no commas, bars or newlines, as in DD_ENV=prod")):
            with self.assertRaises(VariableError) as raised:
                shown(variables(given))
            self.assertEqual(str(raised.exception), text)


class Clients(ClientTest):
    def made(self, given, *arguments, **words):
        """Returns a client of these variables, and no others."""
        names = {os.fsdecode(name): os.fsdecode(text) for name, text in variables(given).items()}
        with mock.patch.dict(os.environ, names, clear=True):
            client = StatsClient.from_environment(*arguments, flush_every=None, on_error=self.faults.append, **words)
        self.addCleanup(client.close)
        return client

    def check(self, client, *lines):
        client.incr("a")
        client.close()
        self.assertEqual((self.receiver.lines(), self.faults), (list(lines), []))

    def test_variables_of_the_process(self):
        port = self.receiver.address[1]
        self.check(self.made(f"STATSD_PORT={port} & DD_ENV=prod & DD_TAGS=beta,k:v:w", "p"), "p.a:1|c|#env:prod,beta,k:v:w")

    def test_a_prefix_of_the_caller_wins(self):
        given = f"STATSD_PORT={self.receiver.address[1]} & STATSD_PREFIX=shop."
        for words, line in (((), "shop.a:1|c"), (("p",), "p.a:1|c"), (("",), "a:1|c")):
            self.check(self.made(given, *words), line)

    def test_no_prefix(self):
        self.check(self.made(f"DD_DOGSTATSD_URL=udp://localhost:{self.receiver.address[1]}"), "a:1|c")

    def test_tags_of_the_caller_come_after_those_of_the_variables(self):
        port = self.receiver.address[1]
        self.check(self.made(f"STATSD_PORT={port} & DD_ENV=prod", tags={"k": "v"}), "a:1|c|#env:prod,k:v")
        self.check(self.made(f"STATSD_PORT={port} & DD_ENV=prod", tags=["beta"], container="id"), "a:1|c|#env:prod,beta|c:id")

    def test_external_data_and_cardinality(self):
        given = f"STATSD_PORT={self.receiver.address[1]} & DD_EXTERNAL_ENV=cn-|web\\n & DATADOG_CARDINALITY=low"
        own = {"external_data": "own", "cardinality": "high"}
        for switch, words, last in (("", {}, "|card:low"), ("yes", {}, "|e:cn-web|card:low"), ("1", own, "|e:own|card:high"),
                                    ("", {"origin_detection": True}, "|e:cn-web|card:low"), ("", own, "|e:own|card:high"),
                                    ("1", {"origin_detection": False}, "|card:low"), ("1", {"external_data": ""}, "|card:low")):
            with self.subTest(switch=switch, words=words):
                client = self.made(f"{given} & DD_ORIGIN_DETECTION_ENABLED={switch}", container="id", **words)
                self.check(client, f"a:1|c|c:id{last}")
        bad = f"STATSD_PORT={self.receiver.address[1]} & DD_EXTERNAL_ENV=\\xff & DD_CARDINALITY=Low"
        self.check(self.made(f"{bad} & DD_ORIGIN_DETECTION_ENABLED=1", container="id", **own), "a:1|c|c:id|e:own|card:high")

    def test_an_address_of_the_caller_is_used_and_no_variable_of_an_address_is_read(self):
        host, port = self.receiver.address
        self.check(self.made("DD_DOGSTATSD_URL=tcp://bad & DD_ENV=prod", host=host, port=port), "a:1|c|#env:prod")
        self.check(self.made("DD_AGENT_HOST=no.such.host.invalid & STATSD_PORT=0", port=port), "a:1|c")

    def test_ipv6(self):
        try:
            receiver = Receiver(socket.AF_INET6, ("::1", 0))
        except OSError as fault:
            self.skipTest(f"this machine has no IPv6: {fault}")
        client = self.made(f"DD_AGENT_HOST=[::1] & DD_DOGSTATSD_PORT={receiver.address[1]}")
        client.incr("a")
        client.close()
        self.assertEqual(receiver.packets(), ["a:1|c\n"])
        receiver.socket.close()

    def test_ipv6_alone(self):
        try:
            receiver = Receiver(socket.AF_INET6, ("::1", 0))
        except OSError as fault:
            self.skipTest(f"this machine has no IPv6: {fault}")
        port = receiver.address[1]
        rows = [(socket.AF_INET, ("127.0.0.1", port)), (socket.AF_INET6, ("::1", port, 0, 0))]

        def found(host, port, family, *_):
            if host != "agent.test":
                raise socket.gaierror(socket.EAI_NONAME, "no address")
            return [(row[0], socket.SOCK_DGRAM, 0, "", row[1]) for row in rows if family in (0, row[0])]
        given = f"STATSD_HOST=agent.test & STATSD_PORT={port} & STATSD_IPV6="
        with mock.patch("socket.getaddrinfo", found):
            for switch, words, family in (("1", {}, socket.AF_INET6), ("0", {}, socket.AF_INET), ("", {"ipv6": True}, socket.AF_INET6),
                                          ("1", {"ipv6": False}, socket.AF_INET),
                                          ("1", {"host": "agent.test", "port": port}, socket.AF_INET)):
                with self.subTest(switch=switch, words=words):
                    self.assertEqual(self.made(given + switch, **words)._family, family)
            client = self.made(given + "yes")
            client.incr("a")
            client.close()
        self.assertEqual((receiver.packets(), self.faults), (["a:1|c\n"], []))
        receiver.socket.close()

    def test_ipv6_refuses_an_address_of_ipv4(self):
        client = self.made(f"STATSD_PORT={self.receiver.address[1]} & STATSD_IPV6=True")
        client.incr("a")
        client.close()
        self.assertEqual((self.receiver.packets(), client.counts()["sent"]), ([], 0))
        self.assertIsInstance(self.faults[0], socket.gaierror)

    def test_unix(self):
        with tempfile.TemporaryDirectory() as folder:
            receiver = Receiver(socket.AF_UNIX, folder + "/statsd.sock")
            client = self.made(f"DD_DOGSTATSD_URL=unix://{folder}/statsd.sock & DD_SERVICE=api")
            client.incr("a")
            client.close()
            self.assertEqual(receiver.packets(), ["a:1|c|#service:api\n"])
            receiver.socket.close()

    def test_a_packet_to_a_unix_socket_has_8192_bytes(self):
        with tempfile.TemporaryDirectory() as folder:
            receiver = Receiver(socket.AF_UNIX, folder + "/statsd.sock")
            url = f"DD_DOGSTATSD_URL=unix://{folder}/statsd.sock"
            for words, packets in (({}, [1024]), ({"maxudpsize": 512}, [64, 64])):
                client = self.made(url, **words)
                for _ in range(sum(packets)):
                    client.incr("abc")
                client.close()
                self.assertEqual(receiver.packets(), ["abc:1|c\n" * lines for lines in packets])
            receiver.socket.close()

    def test_a_packet_over_udp_has_1432_bytes(self):
        given = f"STATSD_PORT={self.receiver.address[1]}"
        for words, packets in (({}, [179, 1]), ({"maxudpsize": 512}, [64, 64])):
            client = self.made(given, **words)
            for _ in range(sum(packets)):
                client.incr("abc")
            client.close()
            self.assertEqual(self.receiver.packets(), ["abc:1|c\n" * lines for lines in packets])

    def test_a_client_that_is_off_sends_nothing(self):
        for switch in ("DD_DOGSTATSD_DISABLE=True", "STATSD_ENABLED=0"):
            client = self.made(f"STATSD_PORT={self.receiver.address[1]} & {switch}", "p")
            client.incr("a")
            client.flush()
            client.close()
            self.assertEqual((self.receiver.packets(), self.faults, client.counts()["sent"]), ([], [], 1))

    def test_a_variable_that_cant_be_used_makes_nothing(self):
        for given in ("DD_DOGSTATSD_URL=tcp://agent", "DD_AGENT_HOST=a b", "STATSD_PORT=0", "STATSD_IPV6=6", "DD_TAGS=a|b",
                      "DD_ENTITY_ID=\\xff", "DD_CARDINALITY=Low", "DATADOG_CARDINALITY=1",
                      "DD_EXTERNAL_ENV=\\xff & DD_ORIGIN_DETECTION_ENABLED=1"):
            with self.subTest(given=given), mock.patch.object(StatsClient, "__init__") as made:
                with self.assertRaises(VariableError):
                    self.made(given)
                made.assert_not_called()

    def test_a_strict_client_takes_the_tags_of_variables(self):
        port = self.receiver.address[1]
        self.check(self.made(f"STATSD_PORT={port} & DD_TAGS=url:http://x,beta", strict=True), "a:1|c|#url:http://x,beta")

    def test_a_kind_of_ones_own(self):
        class Own(StatsClient):
            pass
        with mock.patch.dict(os.environ, {}, clear=True):
            with Own.from_environment() as client:
                self.assertIs(type(client), Own)
                self.assertEqual(client._address, ("127.0.0.1", 8125))


if __name__ == "__main__":
    unittest.main()
