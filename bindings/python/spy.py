# SPDX-License-Identifier: Apache-2.0 OR MIT
from statsd_proved import SpyStatsClient

client = SpyStatsClient(prefix="my.service")
client.incr("visits", tags={"page": "home"})
assert client.lines == ["my.service.visits:1|c|#page:home"]
