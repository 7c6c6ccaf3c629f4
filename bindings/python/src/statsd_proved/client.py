# SPDX-License-Identifier: Apache-2.0 OR MIT
"""The client."""
from __future__ import annotations

import contextlib
import errno
import logging
import os
import sys
import threading
import weakref
from collections.abc import Callable, Mapping
from typing import Any, NoReturn, Self, TypedDict

from . import address, environment, flusher, process
from ._core import Packer
from .environment import UNIX
from .errors import Status, StatusError
from .metrics import Cardinality, Metrics, Tags
from .pipeline import Pipeline
from .telemetry import Telemetry

_log = logging.getLogger("statsd_proved")


class Counts(TypedDict):
    """The counts of a client: `held` is how many bytes are held for the next packet, and `waiting` is how many packets
    wait. `made`, `sent` and `dropped` are numbers of packets; a packet is dropped to make room for another one, because
    it is too long for the socket, or at `close`. `refused` is how many sends the socket refused, and `bad` is how many
    calls kept no line."""

    held: int
    waiting: int
    made: int
    sent: int
    dropped: int
    refused: int
    bad: int


class StatsClient(Metrics):
    """A client that packs metrics into packets, and sends the packets to one address.

    `host` is a name, an address, or `unix:///path` for a datagram socket at that path. Of a name the first address of IPv4
    is taken, or if it has none the first one; with `ipv6` only addresses of IPv6. The constructor looks a name up. Later a
    thread does, which no call waits for: after a minute, and after a refused packet, but then at most once in a second. If a
    lookup fails, the client keeps its address. If it has none yet, its packets are refused. `maxudpsize` is the capacity of
    a packet in bytes; a longer line is a packet of its own. The client sends the held text when a packet is full, every
    `flush_every` seconds, at `flush`, at `close`, at the end of a `with`, when the client is no longer referenced, and
    when the process ends. A thread flushes every `flush_every` seconds. There is no such thread with 0, where each call
    flushes, nor with None, where no call does. Each call flushes too, in place of the thread, in a process that
    multiprocessing or Celery started, because they end such a process at once, and under uWSGI without `enable-threads`
    and `threads`, where no thread runs.

    Threads may share a client. In the child of a fork the client starts empty, because the parent still has the held
    text. It notices each fork, also that of a program which doesn't tell Python of it, as uWSGI.

    No call raises, because a metric must not stop a service. A bad value is counted. A packet that the socket refuses
    is counted, and waits until it is offered again with the next packet. If `packets` packets already wait behind it,
    the oldest of them is dropped and counted. A packet that is too long for the socket is dropped and counted.
    `on_error` receives each of these errors: a TypeError, ValueError, OverflowError, MemoryError or StatusError of a
    call, or an OSError of a packet. If `raises` is set, the call raises the error too. If that is an OSError, the line of
    the call is kept, so the caller must not make the call again. With neither, the first error is logged by `logging`.

    If `aggregate` is set, lines are added up before they are packed: counters are summed, of a gauge the last value is
    held, and of a set each whole number once, for each name with its tags, rate and container. What is held is sent every
    `flush_every` seconds, at `flush`, at `close` and when the process ends. Other lines, such as those of timers and of
    texts in a set, are packed at once. If the socket refuses packets and `packets` of them wait, a call that would need
    one more keeps no line, and is counted in `bad`.

    If `strict` is set, a call with a colon, a comma, a bar or a newline in its name, in a tag or in the container is
    refused with a StatusError of the status SEPARATOR, and no line of it is kept. So no text can make, change or split a
    metric. Tags with keys are then dicts or pairs, because a text as "page:home" has a colon. The value of such a tag may
    have colons, as in {"url": "http://x"}, because the first colon of a tag ends its key. The constructor raises this error
    if the prefix, a tag or the container of the client has such a character.

    If `clean` is set, no call is refused for such a character: each of them in a name, in a tag or in a container is sent as
    an underscore, also in the prefix, the tags and the container of the client. The value of a tag keeps its colons: that of
    a dict or a pair, and of a text such as "page:home" what comes after its first colon. In an event and in a service check
    each text for which the call would be refused is cleaned. The text of a set is not: it is refused as before. The
    constructor raises a ValueError if `strict` is set too.

    If `telemetry` is a prefix, the client sends its own counts: a flush first keeps a counter for each of `packets_sent`,
    `packets_dropped`, `packets_refused` and `lines_refused` (`sent`, `dropped`, `refused` and `bad` of `counts`) that has
    grown since the last report, after that prefix and a dot, with the default tags and the default container. There is at
    most one report in `telemetry_min_flush_interval` seconds, and the packet of a report counts in the next one.

    `external_data` is the value of the variable DD_EXTERNAL_ENV, by which a Datadog agent finds the container and the pod of
    the process. `cardinality` is "none", "low", "orchestrator" or "high", and says which of their tags the agent adds to
    each metric; the cardinality of a call replaces it. The constructor raises a ValueError for external data with a bar or
    a newline, also if the client isn't strict.
    """

    def __init__(self, host: str = "localhost", port: int = 8125, prefix: str | None = None, maxudpsize: int = 512,
                 ipv6: bool = False, *, tags: Tags | None = None, container: str | None = None, packets: int = 64,
                 flush_every: float | None = 1.0, on_error: Callable[[Exception], object] | None = None,
                 raises: bool = False, strict: bool = False, clean: bool = False, aggregate: bool = False,
                 telemetry: str | None = None, telemetry_min_flush_interval: float = 10.0,
                 external_data: str | None = None, cardinality: Cardinality | None = None) -> None:
        if strict and clean:
            raise ValueError("a client is strict or cleans texts, and not both")
        tags = list(tags.items()) if isinstance(tags, Mapping) else tags
        settings = (strict, clean, tags, container, external_data, cardinality)
        self._settings = (prefix.rstrip(".") + "." if prefix else "", maxudpsize, packets, *settings)
        super().__init__(Packer(*self._settings, aggregate))
        self._telemetry = None
        if telemetry is not None:
            self._telemetry = Telemetry(telemetry, telemetry_min_flush_interval, *settings)
        self._adds_up = aggregate
        self._flush_every = flusher.period(flush_every)
        self._at_once = bool(flush_every == 0)
        self._on_error = on_error
        self._raises = raises
        self._logs_next = on_error is None and not raises
        self._pipelines: weakref.WeakSet[Pipeline] = weakref.WeakSet()
        self._socket, self._address, self._name = address.opened(host, port, ipv6)
        self._family = self._socket.family
        self._ended = False
        self._begin()
        process.watch(self)
        if self._name is not None and self._name.fault is not None:
            self._report(self._name.fault)

    @classmethod
    def from_environment(cls, prefix: str | None = None, *, host: str | None = None, port: int | None = None,
                         maxudpsize: int | None = None, ipv6: bool | None = None, tags: Tags | None = None,
                         container: str | None = None, packets: int = 64, flush_every: float | None = 1.0,
                         on_error: Callable[[Exception], object] | None = None, raises: bool = False, strict: bool = False,
                         clean: bool = False, aggregate: bool = False, telemetry: str | None = None,
                         telemetry_min_flush_interval: float = 10.0, origin_detection: bool | None = None,
                         external_data: str | None = None, cardinality: Cardinality | None = None) -> Self:
        """Makes a client that sends to the address and has the tags of the variables of the environment. An empty variable
        counts as not set, and a variable that another one overrides isn't read.

        The address is that of DD_DOGSTATSD_URL (udp://HOST, udp://HOST:PORT, or unix:///PATH, also written
        unixgram:///PATH); otherwise the absolute path of DD_DOGSTATSD_SOCKET; otherwise that of DD_AGENT_HOST and
        DD_DOGSTATSD_PORT; otherwise of STATSD_HOST and STATSD_PORT. Of a host and a port, one alone leaves the other as it
        is by default: 127.0.0.1 and 8125. If DD_DOGSTATSD_DISABLE is 1, true, True or yes, or STATSD_ENABLED is 0, false,
        False or no, the client drops each packet as if it were sent.

        The tags are `env`, `service` and `version` of DD_ENV, DD_SERVICE and DD_VERSION; then those of DD_TAGS, separated by
        commas, or by spaces if it has no comma; and then `dd.internal.entity_id` of DD_ENTITY_ID. A tag of DD_TAGS with the
        key `env`, `service` or `version` is left out if the variable of that key is set.

        A packet has at most 1432 bytes over UDP, unless STATSD_MAXUDPSIZE says otherwise, and 8192 bytes over a Unix socket.
        `maxudpsize` wins over both. If STATSD_IPV6 says yes, only addresses of IPv6 are taken, as with `ipv6`, which wins.

        If DD_ORIGIN_DETECTION_ENABLED says yes, the container is that of the process, by the file /proc/self/cgroup, and the
        external data are those of DD_EXTERNAL_ENV, without bars and control characters of ASCII; `origin_detection`,
        `container` and `external_data` win over it. The cardinality is that of DD_CARDINALITY, or otherwise of
        DATADOG_CARDINALITY; `cardinality` wins over both.

        The arguments are those of the constructor. With `host` or `port` no variable of an address is read, and without
        `prefix` it is that of STATSD_PREFIX. `tags` come after
        those of the variables. The call raises a VariableError if a variable can't be used, before it makes anything, and
        what the constructor raises."""
        if host is None and port is None:
            host, port, size, only_ipv6 = environment.address(os.environb)
            maxudpsize = size if maxudpsize is None else maxudpsize
            ipv6 = only_ipv6 if ipv6 is None else ipv6
        prefix = environment.prefix(os.environb) if prefix is None else prefix
        own = tags or ()
        tags = [*environment.tags(os.environb), *(own.items() if isinstance(own, Mapping) else own)]
        if container is None:
            container = environment.container(os.environb, origin_detection)
        if external_data is None:
            external_data = environment.external_data(os.environb, origin_detection)
        if cardinality is None:
            cardinality = environment.cardinality(os.environb)
        return cls(host="localhost" if host is None else host, port=8125 if port is None else port, prefix=prefix,
                   maxudpsize=1432 if maxudpsize is None else maxudpsize, ipv6=bool(ipv6), tags=tags, container=container,
                   packets=packets, flush_every=flush_every, on_error=on_error, raises=raises, strict=strict, clean=clean,
                   aggregate=aggregate, telemetry=telemetry,
                   telemetry_min_flush_interval=telemetry_min_flush_interval, external_data=external_data,
                   cardinality=cardinality)

    def __reduce__(self) -> NoReturn:
        raise TypeError("a StatsClient can't be copied or pickled: make another one")

    def __enter__(self) -> Self:
        return self

    def __exit__(self, *_: object) -> None:
        self.close()

    def __del__(self) -> None:
        if hasattr(self, "_alarm"):
            self._tell(self._close(), may_raise=False)

    def pipeline(self) -> Pipeline:
        """Returns a pipeline, whose metrics are sent together."""
        made = Pipeline(self, Packer(*self._settings))
        self._pipelines.add(made)
        return made

    def flush(self) -> None:
        """Sends the packets that wait, and the held text."""
        self._tell(self._flush())

    def close(self) -> None:
        """Sends the packets that wait and the held text, and closes. A packet that the socket refuses is offered once more
        if the one before it was sent, and dropped if it isn't sent then. A second call does nothing."""
        self._tell(self._close())

    def counts(self) -> Counts:
        """Returns the counts, also after `close`."""
        with self._sending:
            held, waiting, made, _, dropped = self._packer.counts()
            return Counts(held=held, waiting=waiting + (self._refused is not None), made=made, sent=self._sent,
                          dropped=dropped + self._lost, refused=self._refusals, bad=self._bad_calls)

    def _begin(self) -> None:
        """Starts with no text held, with all counts 0, and without a thread."""
        self._lock = threading.RLock()
        self._is_sending = False
        self._refused: bytes | None = None
        self._sent = self._lost = self._refusals = self._bad_calls = 0
        self._starts = not self._ended
        self._alarm = threading.Lock()
        self._alarm.acquire()

    @property
    def _sending(self) -> contextlib.AbstractContextManager[Any]:
        """The lock of all that the client sends and counts. At the end of the interpreter no other thread runs any more, and
        one that was stopped may have the lock for ever."""
        self._follow_fork()
        if sys.is_finalizing():
            return contextlib.nullcontext()
        return self._lock

    def _follow_fork(self) -> None:
        """Lets all clients start empty, if this is the child of a fork of which Python wasn't told. Until then the lock may be
        that of a thread which the child doesn't have."""
        if self._packer.is_forked():
            process.renew_all()

    def _stop(self) -> None:
        """Ends the thread that flushes, and lets none start."""
        with self._sending:
            self._starts = False
            if not self._ended:
                self._ended = True
                self._alarm.release()

    def _close(self) -> list[Exception]:
        faults: list[Exception] = []
        with self._sending:
            self._stop()
            waiting = [] if self._refused is None or self._is_sending else [self._refused]
            self._refused = None
            try:
                waiting += self._packer.close()
            except MemoryError as fault:
                faults.append(fault)
            faults += self._send_or_drop(waiting)
            self._socket.close()
        return faults

    def _send_or_drop(self, packets: list[bytes]) -> list[OSError]:
        """Offers each packet to the socket, and a refused one once more if the one before it was sent."""
        faults: list[OSError] = []
        has_sent = False
        for packet in packets:
            fault = self._send(packet)
            if fault is not None and has_sent and fault.errno != errno.EMSGSIZE:
                faults.append(fault)
                fault = self._send(packet)
            has_sent = fault is None
            if fault is not None:
                faults.append(fault)
                self._lost += 1
        return faults

    def _end(self) -> None:
        """Sends the held text, and lets each later call flush, because the process ends. If the socket refuses a packet, it
        tries again, as long as a try sends something."""
        faults: list[Exception] = []
        with self._sending:
            if not self._ended:
                sent, faults = self._sent, self._flush()
                while self._refused is not None and self._sent != sent:
                    sent = self._sent
                    faults += self._flush()
                self._stop()
                self._at_once = True
        self._tell(faults, may_raise=False)

    def _flush_unless_ended(self) -> list[Exception]:
        with self._sending:
            return [] if self._ended else self._flush()

    def _move(self, family: int, to: Any) -> None:
        """Sends from now on to this address, from a socket of its family. If none can be made, all stays as it is."""
        with self._sending:
            if self._ended or to == self._address:
                return
            if family != self._family:
                try:
                    made = address.socket_of(family)
                except OSError:
                    return
                self._socket.close()
                self._socket, self._family = made, made.family
            self._address = to

    def _renew(self) -> None:
        """Drops, in the child of a fork, the text and the packets that the parent has too. It makes new locks, because a
        thread that the child doesn't have may hold the old ones."""
        if not self._packer.is_forked():
            return
        self._begin()
        self._packer.renew()
        if self._telemetry is not None:
            self._telemetry.renew()
        if self._name is not None:
            self._name.renew()
        for pipeline in list(self._pipelines):
            pipeline._renew()

    def _start(self) -> None:
        """Is called after the first line of a process. It starts the thread that flushes, if there is to be one. If the
        thread can't be started, the next line tries again."""
        with self._sending:
            if not self._starts:
                return
            self._starts = False
        is_worker = process.watch_worker()
        if not self._flush_every:
            return
        if is_worker or process.lacks_threads():
            self._at_once = True
            return
        try:
            flusher.start(self, self._flush_every, self._alarm)
        except RuntimeError as fault:
            if "shutdown" in str(fault):  # the process ends, so that no thread can be started any more
                self._at_once = True
                return
            self._starts = True
            self._tell([fault])

    def _kept(self, made_packet: bool) -> None:
        if self._starts:
            self._start()
        if self._at_once:
            self.flush()
        elif made_packet:
            with self._sending:
                faults = self._send_all()
            self._tell(faults)

    def _bad(self, fault: Exception) -> bool:
        with self._sending:
            self._bad_calls += 1
        self._report(fault)
        return self._raises

    def _report(self, fault: Exception) -> None:
        if self._on_error is not None:
            try:
                self._on_error(fault)
            except Exception:
                _log.exception("on_error raises")
        elif self._logs_next:
            self._logs_next = False
            _log.warning("the first error of a client, whose later ones are only counted: %r", fault)

    def _tell(self, faults: list[Exception], may_raise: bool = True) -> None:
        for fault in faults:
            self._report(fault)
        if self._raises and may_raise and faults:
            try:
                raise faults[0]
            finally:
                del fault, faults[:]  # the error leads to this frame, so this frame must not lead to the error

    def _add_counts(self) -> None:
        """Keeps the counters of the client's own counts, if it sends them."""
        if self._telemetry is not None and not self._is_sending:
            _, _, _, _, dropped = self._packer.counts()
            self._telemetry.report({"packets_sent": self._sent, "packets_dropped": dropped + self._lost,
                                    "packets_refused": self._refusals, "lines_refused": self._bad_calls}, self._packer.line)

    def _flush(self) -> list[Exception]:
        with self._sending:
            self._add_counts()
            faults = self._send_all()
            while not self._pack(faults) and self._refused is None and not self._is_sending:
                faults += self._send_all()
            if self._refused is None:
                faults += self._send_all()
            return faults

    def _pack(self, faults: list[Exception]) -> bool:
        """Makes packets of all that is held, and returns False if more have to be sent before the rest can be packets."""
        try:
            self._packer.flush()
        except StatusError as fault:
            if fault.status is Status.FULL:
                return False
            faults.append(fault)
        except Exception as fault:
            faults.append(fault)
        return True

    def _send_packets(self, packets: list[bytes]) -> None:
        """Sends the packets of a pipeline, after the held text. A client that adds lines up adds each of their lines."""
        faults: list[Exception] = []
        texts = [packet.decode().removesuffix("\n") for packet in packets]
        if self._adds_up:
            texts = "\n".join(texts).split("\n") if texts else []
        with self._sending:
            for text in texts:
                try:
                    self._packer.line(text)
                except Exception as fault:
                    self._bad_calls += 1
                    faults.append(fault)
                    continue
                faults += self._send_all()
            faults += self._flush()
        self._tell(faults)

    def _send_all(self) -> list[Exception]:
        """Sends the packets that wait, until the socket refuses one. The refused packet then waits, unless it is too
        long for the socket: then it is dropped, and the next packets are sent. In a signal handler that has interrupted
        this call it does nothing, because the interrupted call sends the rest."""
        faults: list[Exception] = []
        if self._is_sending:
            return faults
        self._is_sending = True
        try:
            while True:
                if self._refused is None:
                    self._refused = self._packer.take()
                if self._refused is None:
                    break
                if self._name is not None:
                    self._name.follow(self)
                fault = self._send(self._refused)
                if fault is not None:
                    faults.append(fault)
                    if fault.errno != errno.EMSGSIZE:
                        break
                    self._lost += 1
                self._refused = None
        except MemoryError as no_room:
            faults.append(no_room)
        finally:
            self._is_sending = False
        return faults

    def _send(self, packet: bytes) -> OSError | None:
        try:
            if self._address is None:
                raise self._no_address()
            if self._address is not environment.NOWHERE:
                self._socket.sendto(packet, self._address)
        except OSError as fault:
            self._refusals += 1
            if self._name is not None and fault.errno != errno.EMSGSIZE:
                self._name.was_refused()
            return fault
        self._sent += 1
        return None

    def _no_address(self) -> OSError:
        """Returns the error of the last lookup as a new one."""
        fault = self._name and self._name.fault
        return type(fault)(*fault.args) if fault else OSError(errno.EDESTADDRREQ, os.strerror(errno.EDESTADDRREQ))
