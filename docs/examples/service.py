import asyncio

from statsd_proved import StatsClient

client = StatsClient.from_environment("my.service")


@client.timer("fetch")
async def fetch(page):
    await asyncio.sleep(0.01)
    client.incr("pages", tags={"page": page})


async def main():
    await asyncio.gather(fetch("home"), fetch("cart"))


asyncio.run(main())
