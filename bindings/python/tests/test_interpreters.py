# SPDX-License-Identifier: Apache-2.0 OR MIT
"""Several interpreters in one process, as servers make them."""
import subprocess
import sys
import unittest

PROGRAM = """
import sys
try:
    import _xxsubinterpreters as interpreters
except ImportError:
    import _interpreters as interpreters
import statsd_proved
code = '''
import sys
sys.path[:] = %r
from statsd_proved import StatsClient, StatusError
with StatsClient("127.0.0.1", 9, strict=True, raises=True, flush_every=None) as client:
    try:
        client.incr("a:b")
    except StatusError:
        print("caught", flush=True)
''' % (sys.path,)
old = sys.version_info < (3, 13)
for isolated in (False, True):
    made = interpreters.create(isolated=isolated) if old else interpreters.create("isolated" if isolated else "legacy")
    fault = (interpreters.run_string if old else interpreters.exec)(made, code)
    if fault:
        print(fault)
    interpreters.destroy(made)
"""


class Interpreters(unittest.TestCase):
    def test_each_catches_its_own_error(self):
        ran = subprocess.run([sys.executable, "-W", "ignore", "-c", PROGRAM], stdout=subprocess.PIPE, text=True, check=True)
        self.assertEqual(ran.stdout.splitlines(), ["caught"] * 2)


if __name__ == "__main__":
    unittest.main()
