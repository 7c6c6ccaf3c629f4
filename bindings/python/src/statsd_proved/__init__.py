# SPDX-License-Identifier: Apache-2.0 OR MIT
"""A Statsd client over a proved formatter and packer, with the calls of statsd.StatsClient and the Datadog fields.

    from statsd_proved import StatsClient

    with StatsClient("localhost", 8125, prefix="my.service") as client:
        client.incr("visits", tags={"page": "home"})
"""
from ._core import VERSION as __version__
from .client import Counts, StatsClient
from .environment import VariableError
from .errors import Status, StatusError
from .metrics import Number, Tags
from .pipeline import Pipeline
from .spy import SpyStatsClient
from .timer import Timer

__all__ = ["Counts", "Number", "Pipeline", "SpyStatsClient", "StatsClient", "Status", "StatusError", "Tags", "Timer",
           "VariableError", "__version__"]
