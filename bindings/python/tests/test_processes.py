# SPDX-License-Identifier: Apache-2.0 OR MIT
"""Threads, forks, and the end of a process."""
import collections
import ctypes
import multiprocessing
import multiprocessing.util
import os
import pickle
import platform
import select
import signal
import subprocess
import sys
import threading
import time
import unittest
import weakref
from unittest import mock

from receiver import ClientTest, Recorder, begun
from statsd_proved import Status, StatusError, VariableError, process

THREADS, CALLS = 8, 5000
MANY_AT_EXIT = """
import statsd_proved
clients = [statsd_proved.StatsClient("127.0.0.1", 9, flush_every=0.001) for _ in range(40)]
for client in clients:
    client.incr("a")
"""
MADE_AT_EXIT = """
import statsd_proved, threading, time
made = [statsd_proved.StatsClient("127.0.0.1", int(sys.argv[1]), flush_every=None) for _ in range(600)]
for number in range(100):
    made[number].incr(f"a{number}")
def work():
    while len(made) < 1000:
        made.append(statsd_proved.StatsClient("127.0.0.1", 9, flush_every=None))
        time.sleep(0)
for _ in range(4):
    threading.Thread(target=work, daemon=True).start()
time.sleep(0.001)
"""
AT_EXIT = """
import atexit
atexit.register(lambda: client.incr("late"))  # runs after what the package does at exit
import statsd_proved, sys, threading
client = statsd_proved.StatsClient("127.0.0.1", int(sys.argv[1]))
client.incr("a")
# the frame of this thread keeps the client alive to the end
threading.Thread(target=lambda client: threading.Event().wait(), args=(client,), daemon=True).start()
"""


STOPPED_AT_EXIT = """
import atexit, threading, time
ends, sends = threading.Event(), threading.Event()
atexit.register(lambda: (ends.set(), sends.wait()))  # runs after what the package does at exit
import statsd_proved
class Slow:
    def sendto(self, packet, address):
        if ends.is_set():
            sends.set()
            time.sleep(60)
    def close(self):
        pass
class Last:
    def __init__(self, client):
        self.client = client
    def __del__(self):
        self.client.incr("late")
client = statsd_proved.StatsClient("127.0.0.1", 9, flush_every=None)
client._socket.close()
client._socket = Slow()
statsd_proved.last = Last(client)  # the stopped thread keeps what this module has
threading.Thread(target=lambda: (ends.wait(), client.incr("a")), daemon=True).start()
"""


def _in_worker(client):
    client.incr("child")


def _counts(number):
    _of_pool.incr(f"a{number}")


def _fails(number):
    raise StatusError(Status.SEPARATOR, f"text {number}")


class Threads(ClientTest):
    def test_threads_share_a_client(self):
        client = self.client(flush_every=0.001, tags={"t": 1})
        client._socket.close()
        client._socket = Recorder()

        def work(number):
            for call in range(CALLS):
                client.incr(f"thread{number}", call, tags={"k": call})
                if call % 500 == 0:
                    client.flush()
                    client.counts()
        threads = [threading.Thread(target=work, args=(number,)) for number in range(THREADS)]
        for thread in threads:
            thread.start()
        for thread in threads:
            thread.join()
        client.close()
        self.assertEqual(self.faults, [])
        by_thread = collections.defaultdict(list)
        for line in client._socket.lines():
            by_thread[line.partition(":")[0]].append(line)
        for number in range(THREADS):
            wanted = [f"thread{number}:{call}|c|#t:1,k:{call}" for call in range(CALLS)]
            self.assertEqual(by_thread[f"thread{number}"], wanted)

    def test_a_packet_waits_for_the_one_before_it(self):
        begun = threading.Event()

        class Slow(Recorder):
            def sendto(self, packet, address):
                if not begun.is_set():
                    begun.set()
                    time.sleep(0.2)
                super().sendto(packet, address)

        client = self.client(maxudpsize=8)
        client._socket.close()
        client._socket = Slow()
        client.incr("a")
        first = threading.Thread(target=client.incr, args=("b",))  # sends a
        first.start()
        begun.wait()
        client.incr("c")  # sends b
        first.join()
        client.close()
        self.assertEqual(client._socket.lines(), ["a:1|c", "b:1|c", "c:1|c"])

    def test_threads_close_a_client(self):
        for _ in range(10):
            client = self.client(flush_every=0.001)
            client._socket.close()
            client._socket = Recorder()
            kept = [0] * 4

            def work(number):
                while not client._ended:
                    client.incr("a")
                    kept[number] += 1
            threads = [threading.Thread(target=work, args=(number,)) for number in range(4)]
            for thread in threads:
                thread.start()
            while sum(kept) < 100:
                pass
            client.close()
            for thread in threads:
                thread.join()
            self.assertEqual(len(client._socket.lines()) + client.counts()["bad"], sum(kept))


class Processes(ClientTest):
    def forked(self, work):
        """Runs work in the child of a fork, which ends without calling the handlers of atexit."""
        child = os.fork()
        if child == 0:
            signal.alarm(30)  # ends a child that waits for ever
            try:
                work()
            finally:
                os._exit(0)
        self.assertEqual(os.waitpid(child, 0)[1], 0)

    def test_nothing_is_sent_twice_after_a_fork(self):
        for every, aggregate in ((None, False), (60, False), (60, True)):
            client = self.client(flush_every=every, aggregate=aggregate)
            pipe = client.pipeline()
            client.incr("parent")
            pipe.incr("pipe")
            self.forked(lambda: (client.flush(), pipe.send(), client.close()))
            pipe.send()
            client.flush()
            self.assertEqual(self.receiver.lines(), ["parent:1|c", "pipe:1|c"])

    def silently_forked(self, fork, work):
        """The same, but Python isn't told of the fork, as by uWSGI. `fork` is a call of the C library. If a thread has asked for
        the interpreter's lock, the child waits for ever for that thread to take it. So none asks in the meantime."""
        interval = sys.getswitchinterval()
        sys.setswitchinterval(60)
        time.sleep(4 * interval)  # until those that have asked had the lock
        child = fork()
        sys.setswitchinterval(interval)
        if child == 0:
            signal.alarm(30)
            try:
                work()
            finally:
                os._exit(0)
        self.assertEqual(os.waitpid(child, 0)[1], 0)

    def test_nothing_is_sent_twice_after_a_fork_that_python_is_not_told_of(self):
        library = ctypes.PyDLL(None)  # its calls keep the interpreter's lock
        # the second one calls no handlers of the C library either: it is `fork` of the system, which ARM64 has as `clone`
        words = (220, signal.SIGCHLD, 0, 0, 0, 0) if platform.machine() == "aarch64" else (57,)
        forks = [library.fork, lambda: library.syscall(*words)]
        for fork in forks:
            for every, aggregate in ((None, False), (60, False), (60, True), (0, False)):
                client = self.client(flush_every=every, aggregate=aggregate)
                pipe = client.pipeline()
                client.incr("parent")
                pipe.incr("pipe")
                early = self.receiver.lines()
                for work in (client.flush, pipe.send, client.close, client._end, lambda: client.raw("child:1|c") or client.flush(),
                             lambda: pipe.incr("child") or pipe.send(), lambda: client.incr("child") or client.close()):
                    with self.subTest(every=every, aggregate=aggregate):
                        self.silently_forked(fork, work)
                        self.assertLessEqual(set(self.receiver.lines()), {"child:1|c"})
                pipe.send()
                client.flush()
                self.assertEqual(early + self.receiver.lines(), ["parent:1|c", "pipe:1|c"])

    def test_a_client_of_the_child_keeps_its_lines_when_the_fork_is_noticed(self):
        library = ctypes.PyDLL(None)
        client = self.client()
        client.incr("parent")

        def work():
            own = self.client()
            own.incr("own")
            client.incr("child")
            self.assertEqual((client.counts()["made"], own.counts()["held"]), (0, len("own:1|c\n")))
            own.close()
            self.silently_forked(library.fork, lambda: client.incr("grandchild") or client.flush())
            client.close()
        self.silently_forked(library.fork, work)
        client.flush()
        self.assertEqual(self.receiver.lines(), ["own:1|c", "grandchild:1|c", "child:1|c", "parent:1|c"])

    def test_the_child_of_a_fork_that_python_is_not_told_of_flushes_by_time(self):
        client = self.client(flush_every=1)  # its thread sleeps when the fork happens, because it has just flushed
        client.incr("parent")
        self.assertEqual(self.receiver.lines(30), ["parent:1|c"])
        library = ctypes.PyDLL(None)
        self.silently_forked(library.fork, lambda: (client.incr("child"), select.select([self.receiver.socket], [], [], 30)))
        self.assertEqual(self.receiver.lines(), ["child:1|c"])

    def test_a_silent_fork_while_another_thread_sends(self):
        library = ctypes.PyDLL(None)
        client = self.client()
        with client._sending:
            thread = threading.Thread(target=lambda: self.silently_forked(library.fork, lambda: (client.flush(), client.incr("a"), client.flush())))
            thread.start()
            self.assertEqual(self.receiver.lines(30), ["a:1|c"])
        thread.join()

    def test_each_call_flushes_where_no_thread_runs(self):
        for options, lines in (({b"threads": b"4"}, []), ({"enable-threads": True}, []), ({"master": True}, ["a:1|c"])):
            with mock.patch.dict(sys.modules, {"uwsgi": mock.Mock(opt=options)}):
                with self.client(flush_every=60) as client:
                    client.incr("a")
                    self.assertEqual(self.receiver.lines(), lines)
            self.receiver.lines()

    def test_each_call_flushes_in_a_worker_of_celery(self):
        for parent, lines in ((None, []), (7, ["a:1|c"])):
            module = mock.Mock()
            module.current_process()._parent_pid = parent
            with mock.patch.dict(sys.modules, {"billiard.process": module}), self.client(flush_every=60) as client:
                client.incr("a")
                self.assertEqual(self.receiver.lines(), lines)
            self.receiver.lines()

    def test_a_flush_by_time_beside_a_close_is_no_error(self):
        for _ in range(200):
            client = self.client()
            close = threading.Thread(target=client.close)
            with client._sending:
                flush = threading.Thread(target=lambda: client._tell(client._flush_unless_ended(), may_raise=False))
                end = threading.Thread(target=client._end)
                client._stop()
                for thread in (flush, end, close):
                    thread.start()
                client._packer.close()
            for thread in (flush, end, close):
                thread.join()
        self.assertEqual(self.faults, [])

    def test_a_process_that_ends_starts_no_thread_and_sends_at_once(self):
        client = self.client(flush_every=60, raises=True)
        with mock.patch.object(threading.Thread, "start", side_effect=RuntimeError("can't create new thread at interpreter shutdown")):
            client.incr("a")
        self.assertEqual((self.receiver.lines(), self.faults), (["a:1|c"], []))

    def test_packets_that_wait_are_the_parents(self):
        client = self.client(maxudpsize=8)
        way, client._socket = client._socket, Recorder()
        client._socket.fault = OSError()
        client.incr("a")
        client.incr("b")
        client.incr("c")
        client._socket = way
        self.forked(client.flush)
        client.flush()
        self.assertEqual(self.receiver.lines(), ["a:1|c", "b:1|c", "c:1|c"])

    def test_the_child_of_a_fork_sends_its_own(self):
        client = self.client(prefix="p", tags=["t"], flush_every=0.01)
        client.incr("parent")
        self.assertEqual(self.receiver.lines(30), ["p.parent:1|c|#t"])
        self.forked(lambda: (client.incr("child"), select.select([self.receiver.socket], [], [], 30)))
        self.assertEqual(self.receiver.lines(), ["p.child:1|c|#t"])

    def test_a_fork_while_another_thread_sends(self):
        client = self.client()
        with client._sending:
            thread = threading.Thread(target=lambda: self.forked(lambda: (client.incr("child"), client.flush())))
            thread.start()
            self.assertEqual(self.receiver.lines(30), ["child:1|c"])
        thread.join()

    def test_a_fork_while_another_thread_closes(self):
        begun, ends = threading.Event(), threading.Event()

        class Slow(Recorder):
            def sendto(self, packet, address):
                begun.set()
                ends.wait()

        client = self.client()
        client._socket.close()
        client._socket = Slow()
        client.incr("a")
        thread = threading.Thread(target=client.close)
        thread.start()
        begun.wait()

        def work():
            signal.alarm(5)
            client._socket = Recorder()
            client.close()
            self.assertEqual((client.counts()["made"], client._socket.sent), (0, []))
        try:
            self.forked(work)
        finally:
            ends.set()
            thread.join()

    def test_the_end_of_a_pool(self):
        global _of_pool
        _of_pool = self.client(flush_every=60)
        for _ in range(3):
            with multiprocessing.get_context("fork").Pool(4) as pool:
                pool.map(_counts, range(100), chunksize=5)
            self.assertEqual(sorted(self.receiver.lines()), sorted(f"a{number}:1|c" for number in range(100)))

    def test_an_error_in_a_pool(self):
        with multiprocessing.get_context("fork").Pool(1) as pool:
            with self.assertRaises(StatusError) as raised:
                pool.apply_async(_fails, (7,)).get(timeout=10)
        self.assertEqual((raised.exception.status, str(raised.exception)), (Status.SEPARATOR, "text 7"))
        error = pickle.loads(pickle.dumps(VariableError("DD_ENV", "short")))
        self.assertEqual((error.variable, str(error)), ("DD_ENV", "short"))

    def test_clients_leave_nothing_in_multiprocessing(self):
        before = len(multiprocessing.util._finalizer_registry)
        for _ in range(10):
            self.sent_by(lambda c: c.incr("a"))
        self.assertLessEqual(len(multiprocessing.util._finalizer_registry), before + 1)

    def test_the_end_of_a_process_with_many_threads(self):
        for _ in range(4):
            programs = [begun(MANY_AT_EXIT, switch_interval=1e-5) for _ in range(4)]
            for program in programs:
                self.addCleanup(program.kill)
            for program in programs:
                self.assertEqual(program.communicate(timeout=30)[1], "")

    def test_the_end_of_a_process_whose_thread_is_stopped_while_it_sends(self):
        program = begun(STOPPED_AT_EXIT, switch_interval=1e-3)
        self.addCleanup(program.kill)
        self.assertEqual(program.communicate(timeout=30)[1], "")

    def test_the_end_of_a_process_whose_threads_make_clients(self):
        for _ in range(6):
            program = begun(MADE_AT_EXIT, self.receiver.address[1], switch_interval=1e-5)
            self.assertEqual(program.communicate(timeout=30)[1], "")
            self.assertEqual(sorted(self.receiver.lines()), sorted(f"a{number}:1|c" for number in range(100)))

    def test_an_error_of_one_client_at_exit_leaves_the_others(self):
        with mock.patch.object(process, "_clients", weakref.WeakValueDictionary()):
            first, second = self.client(), self.client()
            second.incr("a")
            with mock.patch.object(first, "_flush", side_effect=KeyError), self.assertLogs("statsd_proved"):
                process._end_all()
        self.assertEqual(self.receiver.lines(), ["a:1|c"])

    def test_the_end_of_a_worker(self):
        for every, aggregate in ((None, False), (60, False), (60, True)):
            client = self.client(flush_every=every, aggregate=aggregate)
            client.incr("parent")
            worker = multiprocessing.get_context("fork").Process(target=_in_worker, args=(client,))
            worker.start()
            worker.join()
            self.assertEqual(self.receiver.lines(), ["child:1|c"])

    def test_what_is_held_goes_out_at_exit(self):
        subprocess.run([sys.executable, "-c", AT_EXIT, str(self.receiver.address[1])], check=True)
        self.assertEqual(self.receiver.lines(), ["a:1|c", "late:1|c"])

    def test_what_is_held_goes_out_at_an_exit_by_an_error(self):
        told = subprocess.run([sys.executable, "-c", AT_EXIT + "client.pipeline().incr('b'); 1 / 0",
                               str(self.receiver.address[1])], stderr=subprocess.PIPE, text=True)
        self.assertIn("ZeroDivisionError", told.stderr.splitlines()[-1])
        self.assertEqual(self.receiver.lines(), ["a:1|c", "late:1|c"])


if __name__ == "__main__":
    unittest.main()
