# SPDX-License-Identifier: Apache-2.0 OR MIT
"""Metrics that go out together."""
from __future__ import annotations

from typing import TYPE_CHECKING

from ._core import Packer
from .metrics import Metrics

if TYPE_CHECKING:
    from .client import StatsClient


class Pipeline(Metrics):
    """Holds metrics until `send` or the end of a `with`, and then sends all of them, in as few packets as possible.
    Only one thread at a time may use a pipeline."""

    def __init__(self, client: StatsClient, packer: Packer) -> None:
        super().__init__(packer)
        self._client = client
        self._packets: list[bytes] = []

    def __enter__(self) -> Pipeline:
        return self

    def __exit__(self, *_: object) -> None:
        self.send()

    def send(self) -> None:
        """Sends the metrics that are held."""
        self._client._follow_fork()
        try:
            self._packer.flush()
        except MemoryError as fault:
            self._client._tell([fault])
        self._take()
        packets, self._packets = self._packets, []
        self._client._send_packets(packets)

    def pipeline(self) -> Pipeline:
        """Returns another pipeline of the same client."""
        return self._client.pipeline()

    def _kept(self, made_packet: bool) -> None:
        if made_packet:
            self._take()

    def _take(self) -> None:
        try:
            while (packet := self._packer.take()) is not None:
                self._packets.append(packet)
        except MemoryError as fault:
            self._client._tell([fault])

    def _renew(self) -> None:
        """Drops, in the child of a fork, the metrics that the parent has too."""
        self._packets = []
        self._packer.renew()

    def _bad(self, fault: Exception) -> bool:
        return self._client._bad(fault)
