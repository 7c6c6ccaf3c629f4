# SPDX-License-Identifier: Apache-2.0 OR MIT
"""A client for tests."""
from __future__ import annotations

import socket
from typing import Any

from .client import StatsClient


class SpyStatsClient(StatsClient):
    """A client for tests of a service, which sends nothing: `lines` are the lines of its calls so far. The arguments are
    those of StatsClient except for those of an address."""

    def __init__(self, prefix: str | None = None, *, flush_every: float | None = None, **words: Any) -> None:
        self._lines: list[str] = []
        super().__init__("127.0.0.1", prefix=prefix, flush_every=flush_every, **words)

    @property
    def lines(self) -> list[str]:
        """The lines of the calls so far, in their order."""
        self.flush()
        return list(self._lines)

    def _send(self, packet: bytes) -> OSError | None:
        self._lines += packet.decode().removesuffix("\n").split("\n")
        self._sent += 1
        return None
