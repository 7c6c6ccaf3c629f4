# SPDX-License-Identifier: Apache-2.0 OR MIT
"""The thread that flushes a client after each period."""
from __future__ import annotations

import threading
import weakref
from typing import TYPE_CHECKING

if TYPE_CHECKING:
    from .client import StatsClient


def period(flush_every: float | None) -> float | None:
    """Returns a period for which a thread can wait."""
    if flush_every is None:
        return None
    if not isinstance(flush_every, (int, float)) or not flush_every >= 0:
        raise ValueError(f"flush_every is {flush_every!r}: it has to be None, or a number of seconds that is 0 or more")
    return min(flush_every, threading.TIMEOUT_MAX)


def _flush_often(client: weakref.ref[StatsClient], seconds: float, ended: threading.Lock) -> None:
    """Flushes the client after each period, until it is closed or no longer referenced. It waits for a plain lock, because
    it may be stopped while it waits, if the process ends, and must not hold a lock then that others wait for."""
    while not ended.acquire(timeout=seconds):
        it = client()
        if it is None:
            return
        it._tell(it._flush_unless_ended(), may_raise=False)
        del it


def start(client: StatsClient, seconds: float, ended: threading.Lock) -> None:
    """Starts the thread, which ends when it gets the lock. It raises a RuntimeError if the system starts none."""
    words = (weakref.ref(client), seconds, ended)
    threading.Thread(target=_flush_often, args=words, name="statsd_proved", daemon=True).start()
