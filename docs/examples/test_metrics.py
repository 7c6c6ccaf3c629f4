from types import SimpleNamespace
from unittest import mock

import metrics
from statsd_proved import SpyStatsClient

spy = SpyStatsClient(prefix="my.site")
with mock.patch.object(metrics, "client", spy):
    answer = metrics.CountRequests(lambda request: SimpleNamespace(status_code=200))
    answer(SimpleNamespace(method="GET"))
assert spy.lines[-1] == "my.site.requests:1|c|#status:200"
