# SPDX-License-Identifier: Apache-2.0 OR MIT
"""The calls that make metrics, of clients and of pipelines."""
from __future__ import annotations

import abc
import datetime
import decimal
from collections.abc import Callable, Iterator, Mapping
from typing import Any, Literal, Protocol, TypeVar, Union

from ._core import Calls, Packer
from .timer import Timer

Element = TypeVar("Element", covariant=True)


class Several(Protocol[Element]):
    """A list, a tuple or another sequence, but neither a str nor bytes, whose `in` takes no other objects."""

    def __contains__(self, element: object, /) -> bool: ...
    def __iter__(self) -> Iterator[Element]: ...
    def __getitem__(self, index: int, /) -> Element: ...


Number = Union[int, float, decimal.Decimal]
Numbers = Union[tuple[Number, ...], Several[Number]]
Tag = Union[str, Number, tuple[str, object]]
Tags = Union[Mapping[str, object], tuple[Tag, ...], Several[Tag]]
"""Tags: a dict, or a list whose elements are texts ("page:home", "beta") or pairs of a key and a text. An object that is no
str is printed as `str` does, but bytes and objects that have others in them are refused."""

Priority = Literal["low", "normal"]
AlertType = Literal["error", "warning", "info", "success"]
Cardinality = Literal["none", "low", "orchestrator", "high"]
"""Which tags of its container a Datadog agent adds to a metric."""


def _millis(time: Any) -> Any:
    """Returns a timedelta in milliseconds, and each other object as it is."""
    return time.total_seconds() * 1000 if isinstance(time, datetime.timedelta) else time


def in_millis(times: Any) -> Any:
    """Returns a timedelta, or a list or a tuple of them, in milliseconds. The call `timing` makes this call."""
    return [_millis(each) for each in times] if isinstance(times, (list, tuple)) else _millis(times)


class Metrics(Calls, abc.ABC):
    """Calls that make metrics, events and service checks.

    Each call of a metric takes a `rate`. If the rate is below 1, only this share of the calls is kept, chosen at random,
    and the line has the rate, by which the server scales. Each call also takes `tags`, a `container`, a `timestamp`
    (seconds since 1970, rounded down) and a `cardinality` ("none", "low", "orchestrator" or "high"), which servers with the
    Datadog fields read. A value is an int, a float or a Decimal. An empty list of values is refused, because no server reads a metric without a value.
    """

    OK, WARNING, CRITICAL, UNKNOWN = range(4)  # the states of a service

    def __init__(self, packer: Packer) -> None:
        super().__init__(packer)
        self._packer = packer

    def raw(self, line: str) -> None:
        """Keeps a line as it is, without the prefix and the tags of the client. A strict client doesn't test it either."""
        self._keep_by(self._packer.line, line)

    def event(self, title: str, text: str, *, timestamp: float | None = None, hostname: str | None = None,
              aggregation_key: str | None = None, priority: Priority | None = None, source_type: str | None = None,
              alert_type: AlertType | None = None, tags: Tags | None = None, container: str | None = None) -> None:
        """Sends an event of DogStatsD: something that happened, with a title and a text that people read. Both may have any
        character: a newline is escaped. Another text with a colon, a comma, a bar or a newline is refused, also if the client
        isn't strict. A tag that is a text, as "page:home", is cut at its first colon unless the client is strict. The line
        has the tags and the container of the client, but not the prefix."""
        self._keep_by(self._packer.event, title, text, timestamp, hostname, aggregation_key, priority, source_type, alert_type,
                      tags, container)

    def service_check(self, name: str, status: int, *, tags: Tags | None = None, timestamp: float | None = None,
                      hostname: str | None = None, message: str | None = None, container: str | None = None) -> None:
        """Sends a service check of DogStatsD: the state of a service, which is OK, WARNING, CRITICAL or UNKNOWN of this class.
        The message may have any character but a bar: a newline and `m:` are escaped. The rest is as in `event`."""
        self._keep_by(self._packer.check, name, status, timestamp, hostname, message, tags, container)

    def timer(self, stat: str, rate: float = 1, *, tags: Tags | None = None, container: str | None = None,
              timestamp: float | None = None, cardinality: Cardinality | None = None) -> Timer:
        """Returns a timer. It is a context manager, a decorator of functions and of coroutine functions, and an object
        with `start`, `stop` and `send`."""
        return Timer(self, stat, rate, tags=tags, container=container, timestamp=timestamp, cardinality=cardinality)

    def _keep_by(self, keep: Callable[..., bool], *arguments: Any) -> None:
        try:
            made_packet = keep(*arguments)
        except Exception as fault:
            if self._bad(fault):
                raise
            return
        if made_packet or self._starts or self._at_once:
            self._kept(made_packet)

    def _failed(self, fault: Exception) -> None:
        """Is called for each call of a metric that keeps no line."""
        try:
            raise fault
        except Exception:
            if self._bad(fault):
                raise
        finally:
            del fault  # the error leads to this frame, so this frame must not lead to the error

    @abc.abstractmethod
    def _kept(self, made_packet: bool) -> None:
        """Is called after each line that made a packet, and if `_starts` or `_at_once` is set after each line."""

    @abc.abstractmethod
    def _bad(self, fault: Exception) -> bool:
        """Is called for each call that keeps no line. Returns whether the call has to raise the error."""
