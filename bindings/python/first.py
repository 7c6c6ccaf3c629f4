# SPDX-License-Identifier: Apache-2.0 OR MIT
from statsd_proved import StatsClient

with StatsClient("127.0.0.1", 8125, prefix="my.service", tags={"env": "prod"}) as client:
    client.incr("visits", tags={"page": "home"})
    client.gauge("load", 1.25)
