"""The client for asyncio.

    async with await rxline.aio.connect("/run/hazoxe/hazoxe.sock") as client:
        await client.publish("s", "hello")
        async for note in await client.subscribe("s"):
            ...

It is `rxline.Client` in each other respect, but that many tasks may ask at a time: what they send goes by one connection, one line
behind the other, and none waits for another's answer.
"""

from .client import Client, connect
from .subscription import Subscription

__all__ = ["Client", "Subscription", "connect"]
