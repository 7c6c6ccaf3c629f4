# SPDX-License-Identifier: Apache-2.0 OR MIT
"""Servers that fork, each in a process of its own: every line is counted once. One that isn't installed is left out."""
import collections
import os
import pathlib
import re
import shutil
import signal
import socket
import subprocess
import sys
import tempfile
import time
import unittest
import urllib.request

from receiver import ClientTest

WORKERS, REQUESTS = 3, 40
APP = """
import os
from statsd_proved import StatsClient
client = StatsClient("127.0.0.1", int(os.environ["STATSD_TEST_PORT"]), flush_every=0.2)
client.incr("loaded")
def application(environ, start):
    client.incr("hits")
    start("200 OK", [("Content-Type", "text/plain")])
    return [b"ok"]
"""
TASKS = """
import os, pathlib
from celery import Celery
from statsd_proved import StatsClient
folder = str(pathlib.Path(__file__).parent)
app = Celery("tasks", broker="filesystem://")
app.conf.broker_transport_options = {"data_folder_in": folder, "data_folder_out": folder, "control_folder": folder}
client = StatsClient("127.0.0.1", int(os.environ["STATSD_TEST_PORT"]), flush_every=3600)
client.incr("loaded")
@app.task
def work():
    client.incr("hits")
@app.task
def begin(times):
    for _ in range(times):
        work.delay()
"""
UWSGI = ["uwsgi", "--plugin", "python3", "--master", "-p", str(WORKERS), "--module", "app:application", "--disable-logging", "--die-on-term"]
GUNICORN = ["gunicorn", "--log-level", "error", "-w", str(WORKERS), "app:application"]


def free_port():
    with socket.socket() as made:
        made.bind(("127.0.0.1", 0))
        return made.getsockname()[1]


class Servers(ClientTest):
    def folder_of(self, name, program):
        """Returns a folder with a program, and the environment of processes that load it."""
        folder = self.enterContext(tempfile.TemporaryDirectory())
        pathlib.Path(folder, name).write_text(program)
        paths = [folder, os.environ.get("PYTHONPATH", "")]
        return folder, {**os.environ, "PYTHONPATH": ":".join(paths), "STATSD_TEST_PORT": str(self.receiver.address[1])}

    def started(self, command):
        """Starts a server over the app, and returns it with its address, or skips the test if it can't run here."""
        if shutil.which(command[0]) is None:
            self.skipTest(f"there is no {command[0]}")
        folder, words = self.folder_of("app.py", APP)
        address = f"127.0.0.1:{free_port()}"
        option = "--http-socket" if command[0] == "uwsgi" else "-b"
        server = subprocess.Popen([*command, option, address], cwd=folder, env=words, stdout=subprocess.DEVNULL, stderr=subprocess.PIPE)
        self.addCleanup(server.kill)
        while not self.answers(address):
            if server.poll() is not None:
                said = server.communicate()[1].decode(errors="replace")
                self.assertRegex(said, "(?i)plugin|no python application|ModuleNotFoundError|ImportError")
                self.skipTest(f"{command[0]} has no Python of this version")
            time.sleep(0.05)
        return server, address

    def answers(self, address):
        try:
            return urllib.request.urlopen(f"http://{address}/", timeout=60).read() == b"ok"
        except OSError:
            return False

    def counted(self, counts):
        for line in self.receiver.lines():
            name, value = re.fullmatch(r"(\w+):(\d+)\|c", line).groups()
            counts[name] += int(value)

    def check(self, command, loaded, early=0):
        """Makes requests, and counts what arrives while the server waits for more, and after its end. `early` is how many
        processes flush by time what they count when they load the app. A worker of uWSGI that still loads it misses the
        end."""
        server, address = self.started(command)
        for _ in range(REQUESTS - 1):
            self.assertTrue(self.answers(address))
        self.check_counts(server, loaded, early)

    def check_counts(self, server, loaded, early=0):
        counts = collections.Counter()
        limit = time.monotonic() + 30
        while (counts["hits"] < REQUESTS or counts["loaded"] < early) and time.monotonic() < limit:
            time.sleep(0.05)
            self.counted(counts)
        self.assertEqual(counts["hits"], REQUESTS)
        server.send_signal(signal.SIGTERM)
        server.wait(60)
        server.stderr.close()
        self.counted(counts)
        self.assertEqual(dict(counts), {"hits": REQUESTS, "loaded": loaded})

    def test_uwsgi(self):
        for options in ([], ["--enable-threads"], ["--enable-threads", "--py-call-osafterfork"], ["--py-call-osafterfork"], ["--threads", "4"]):
            with self.subTest(options=options):
                self.check([*UWSGI, *options], 1)

    def test_uwsgi_whose_workers_load_the_app(self):
        self.check([*UWSGI, "--lazy-apps", "--enable-threads"], WORKERS, WORKERS)

    def test_gunicorn(self):
        self.check([*GUNICORN, "--preload"], 1)
        self.check([*GUNICORN, "--preload", "--threads", "4"], 1)

    def test_celery(self):
        folder, words = self.folder_of("tasks.py", TASKS)
        has_celery = lambda python: subprocess.run([python, "-c", "import celery"], env=words, stderr=subprocess.DEVNULL).returncode == 0
        python = next((it for it in (sys.executable, "/usr/bin/python3") if shutil.which(it) and has_celery(it)), None)
        if python is None:
            self.skipTest("there is no celery")
        celery = [python, "-m", "celery", "-A", "tasks"]
        worker = ["worker", "-c", str(WORKERS), "--without-gossip", "--without-mingle", "--without-heartbeat"]
        how = {"cwd": folder, "env": words, "stdout": subprocess.DEVNULL, "stderr": subprocess.PIPE}
        server = subprocess.Popen([*celery, *worker], **how)
        self.addCleanup(server.kill)
        subprocess.run([*celery, "call", "tasks.begin", f"--args=[{REQUESTS}]"], check=True, timeout=120, **how)
        self.check_counts(server, 2)  # by the process that starts the workers, and by the one that calls the first task


if __name__ == "__main__":
    unittest.main()
