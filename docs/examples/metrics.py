from statsd_proved import StatsClient

client = StatsClient.from_environment("my.site")


class CountRequests:
    def __init__(self, get_response):
        self.get_response = get_response

    def __call__(self, request):
        with client.timer("request", tags={"method": request.method}):
            response = self.get_response(request)
        client.incr("requests", tags={"status": response.status_code})
        return response
