# SPDX-License-Identifier: Apache-2.0 OR MIT
"""The counts of a client, which it sends as counters of its own."""
from __future__ import annotations

import time
from collections.abc import Callable, Mapping
from typing import Any

from ._core import Packer
from .errors import StatusError

_CAPACITY = 65507


class Telemetry:
    """Makes a counter for each count that has grown since the last report, with a prefix of its own and the other settings of
    the client. There is at most one report in `every` seconds."""

    def __init__(self, prefix: str, every: float, *settings: Any) -> None:
        if not isinstance(every, (int, float)) or not every >= 0:
            raise ValueError(f"telemetry_min_flush_interval is {every!r}: it has to be a number of seconds that is 0 or more")
        self._packer = Packer(prefix.rstrip(".") + "." if prefix else "", _CAPACITY, 2, *settings)
        self._every = every
        self._told: dict[str, int] = {}
        self._at = time.monotonic()

    def renew(self) -> None:
        """Starts again, in the child of a fork."""
        self._packer.renew()
        self._told = {}
        self._at = time.monotonic()

    def report(self, counts: Mapping[str, int], keep: Callable[[str], object]) -> None:
        """Keeps a counter for each of these counts that has grown, if the last report is long enough ago. If a line can't be
        kept, the next report adds its number."""
        if time.monotonic() - self._at < self._every:
            return
        self._at = time.monotonic()
        for name, count in counts.items():
            if count != self._told.get(name, 0):
                try:
                    keep(self._line(name, count - self._told.get(name, 0)))
                except (StatusError, MemoryError):
                    continue
                self._told[name] = count

    def _line(self, name: str, number: int) -> str:
        self._packer.count(name, number)
        self._packer.flush()
        packet = self._packer.take()
        return packet.decode().removesuffix("\n") if packet is not None else ""
