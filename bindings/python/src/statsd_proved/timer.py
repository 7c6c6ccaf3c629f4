# SPDX-License-Identifier: Apache-2.0 OR MIT
"""Times of blocks and of functions."""
from __future__ import annotations

import functools
import inspect
import time
from collections.abc import Callable
from typing import TYPE_CHECKING, Any, TypeVar, cast

if TYPE_CHECKING:
    from .metrics import Cardinality, Metrics, Tags

Function = TypeVar("Function", bound=Callable[..., Any])


def _wraps(function: Callable[..., Any]) -> Callable[[Callable[..., Any]], Any]:
    while isinstance(function, functools.partial):
        function = function.func
    return functools.wraps(function)


class Timer:
    """Measures a time. After `stop`, the field `ms` is the time in milliseconds."""

    def __init__(self, client: Metrics, stat: str, rate: float = 1, *, tags: Tags | None = None,
                 container: str | None = None, timestamp: float | None = None,
                 cardinality: Cardinality | None = None) -> None:
        self.client = client
        self.stat = stat
        self.rate = rate
        self.ms: float | None = None
        self._fields = (tags, container, timestamp, cardinality)
        self._sent = False
        self._start_time: float | None = None

    def __call__(self, function: Function) -> Function:
        """Returns a function that measures each of its calls, also if several threads call it at once. A coroutine is
        measured from its first step to its end. Of a generator, only the call that makes it is measured."""
        if inspect.iscoroutinefunction(function) or inspect.iscoroutinefunction(getattr(function, "__call__", None)):
            @_wraps(function)
            async def timed_coroutine(*args: Any, **kwargs: Any) -> Any:
                with self._another():
                    return await function(*args, **kwargs)
            return cast(Function, timed_coroutine)

        @_wraps(function)
        def timed(*args: Any, **kwargs: Any) -> Any:
            with self._another():
                return function(*args, **kwargs)
        return cast(Function, timed)

    def _another(self) -> Timer:
        tags, container, timestamp, cardinality = self._fields
        return Timer(self.client, self.stat, self.rate, tags=tags, container=container, timestamp=timestamp,
                     cardinality=cardinality)

    def __enter__(self) -> Timer:
        return self.start()

    def __exit__(self, *_: object) -> None:
        self.stop()

    def start(self) -> Timer:
        """Starts the timer. If it was started already, it starts again."""
        self.ms = None
        self._sent = False
        self._start_time = time.perf_counter()
        return self

    def stop(self, send: bool = True) -> Timer:
        """Stops the timer, and sends the time unless `send` is false."""
        if self._start_time is None:
            raise RuntimeError("the timer has not started")
        self.ms = 1000 * (time.perf_counter() - self._start_time)
        if send:
            self.send()
        return self

    def send(self) -> None:
        """Sends the time. A second call without a new start raises a RuntimeError."""
        if self.ms is None:
            raise RuntimeError("the timer has no time yet")
        if self._sent:
            raise RuntimeError("the time was sent already")
        self._sent = True
        tags, container, timestamp, cardinality = self._fields
        self.client.timing(self.stat, self.ms, self.rate, tags=tags, container=container, timestamp=timestamp,
                           cardinality=cardinality)
