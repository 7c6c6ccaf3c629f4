# SPDX-License-Identifier: Apache-2.0 OR MIT
"""Where packets go: a path, an address, or the name of a host, which is looked up again and again."""
from __future__ import annotations

import math
import os
import socket
import threading
import time
import weakref
from typing import TYPE_CHECKING, Any

from .environment import NOWHERE, UNIX

if TYPE_CHECKING:
    from .client import StatsClient

PERIOD, AFTER_REFUSAL = 60.0, 1.0  # seconds from a lookup to the next one, and to the next one after a refused packet


def look_up(host: str, port: int, family: int, flags: int = 0) -> tuple[int, Any]:
    """Returns the family and the address to which packets go: the first one of IPv4, or if there is none the first one."""
    found = socket.getaddrinfo(host, port, family, socket.SOCK_DGRAM, 0, flags)
    chosen = next((row for row in found if row[0] == socket.AF_INET), found[0])
    return chosen[0], chosen[4]


class Name:
    """The name of a host. It is looked up again after a minute, and after a refused packet, but then at most once in a
    second. A thread of its own does it, so that no call waits. If a lookup fails, the address stays as it is."""

    def __init__(self, host: str, port: int, family: int) -> None:
        self._words = (host, port, family)
        self._last = -math.inf  # when it was last looked up
        self._is_looked_up = self._was_refused = False
        self.fault: OSError | None = None  # of the last lookup

    def look_up(self) -> tuple[int, Any] | None:
        """Looks the name up now. Returns None if that fails."""
        try:
            found = look_up(*self._words)
            self.fault = None
            return found
        except OSError as fault:
            self.fault = type(fault)(*fault.args)  # without the frames of this call
            return None
        finally:
            self._last = time.monotonic()
            self._is_looked_up = self._was_refused = False

    def renew(self) -> None:
        """Lets the next packet look the name up, in the child of a fork, which doesn't have the thread that does."""
        self._last = -math.inf
        self._is_looked_up = False

    def was_refused(self) -> None:
        """Is called after a refused packet."""
        self._was_refused = True

    def follow(self, client: StatsClient) -> None:
        """Begins a lookup if it is time. Only one call at a time may call this."""
        pause = AFTER_REFUSAL if self._was_refused else PERIOD
        if self._is_looked_up or time.monotonic() - self._last < pause:
            return
        self._is_looked_up = True
        try:
            threading.Thread(target=_follow, args=(self, weakref.ref(client)), name="statsd_proved", daemon=True).start()
        except RuntimeError:  # no thread can be started
            self._last = time.monotonic()
            self._is_looked_up = False


def _follow(name: Name, client: weakref.ref[StatsClient]) -> None:
    found = name.look_up()
    it = client()
    if found is not None and it is not None:
        it._move(*found)


def opened(host: str, port: int, ipv6: bool) -> tuple[socket.socket, Any, Name | None]:
    """Returns a socket that doesn't block, the address that it sends to, which is None if a lookup fails, and the name that
    has to be looked up again, if the host is one. If nothing is sent, the address is NOWHERE."""
    if host == NOWHERE:
        return socket_of(socket.AF_UNIX), NOWHERE, None
    if host.startswith(UNIX):
        path = os.fsencode(host[len(UNIX):])
        return socket_of(socket.AF_UNIX), path, None
    if not 0 < int(port) < 65536:
        raise ValueError(f"port is {port}: it has to be from 1 to 65535")
    wanted = socket.AF_INET6 if ipv6 else socket.AF_UNSPEC
    name = None
    try:
        found: tuple[int, Any] = look_up(host, port, wanted, socket.AI_NUMERICHOST)
    except socket.gaierror:
        name = Name(host, port, wanted)
        found = name.look_up() or (socket.AF_INET, None)
    return socket_of(found[0]), found[1], name


def socket_of(family: int) -> socket.socket:
    """Returns a socket that doesn't block."""
    made = socket.socket(family, socket.SOCK_DGRAM)
    made.setblocking(False)
    return made
