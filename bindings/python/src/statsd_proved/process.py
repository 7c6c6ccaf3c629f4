# SPDX-License-Identifier: Apache-2.0 OR MIT
"""What clients do when the process ends, and in the child of a fork."""
from __future__ import annotations

import atexit
import logging
import os
import sys
import weakref
from collections.abc import Callable
from typing import TYPE_CHECKING

if TYPE_CHECKING:
    from .client import StatsClient

_log = logging.getLogger("statsd_proved")
_clients: weakref.WeakValueDictionary[int, StatsClient] = weakref.WeakValueDictionary()
_watched = 0  # the process whose end multiprocessing reports


def watch(client: StatsClient) -> None:
    """Makes the client send its held text when the process ends, and start empty in the child of a fork."""
    _clients[id(client)] = client


def watch_worker() -> bool:
    """Makes all clients send their held text when a process of multiprocessing ends, because such a process doesn't
    call the handlers of atexit. Returns whether multiprocessing has started this process, or billiard, which Celery has in
    place of it."""
    global _watched
    billiard = sys.modules.get("billiard.process")
    if billiard is not None and billiard.current_process()._parent_pid is not None:
        return True
    util = sys.modules.get("multiprocessing.util")
    if util is None:
        return False
    if _watched != os.getpid():
        _watched = os.getpid()
        util.Finalize(None, _end_all, exitpriority=0)
    return sys.modules["multiprocessing.process"].parent_process() is not None


def _each(call: Callable[[StatsClient], None]) -> None:
    """Makes a call of each client, also if the call of another one fails, or if other threads make clients."""
    for reference in _clients.valuerefs():
        client = reference()
        try:
            if client is not None:
                call(client)
        except Exception:
            _log.exception("a client can't end, or can't start in the child of a fork")


def _end_all() -> None:
    _each(lambda client: client._end())


def renew_all() -> None:
    """Lets each client that a parent made start empty, in the child of a fork. The extension module calls this too, at the
    first call of a client in a child that Python wasn't told of."""
    _each(lambda client: client._renew())


def lacks_threads() -> bool:
    """Returns whether threads don't run while this process waits for work, as under uWSGI without `enable-threads` and
    `threads`."""
    options = getattr(sys.modules.get("uwsgi"), "opt", None)
    return options is not None and not {"enable-threads", "threads"} & {os.fsdecode(name) for name in options}


atexit.register(_end_all)
os.register_at_fork(after_in_child=renew_all)
