"""What `client.py` does, by `rxline.aio`."""

import asyncio
import sys

import rxline
from client import MISUSES, ROOMS, follow_words, hold_many, kind_of, published, strategy_of, tell, texts, words_of
from rxline import aio


async def follow(path, subject, *words):
    connecting, following = follow_words(*words)
    async with await aio.connect(path, **connecting) as client:
        async with await client.subscribe(subject, **following) as notes:
            tell("joined")
            async for note in notes:
                tell(notes.position, *words_of(note))


async def publish(path, subject, way):
    handed_in, first = texts(), 0
    async with await aio.connect(path) as client:
        while first < len(handed_in):
            try:
                count = await client.publish_many(subject, handed_in[first:], resend=way == "resend")
                tell("accepted", first, first + count)
                first += count
            except rxline.NotAllPublished as outcome:
                first = published(first, outcome)


async def end(path, subject):
    async with await aio.connect(path) as client:
        await client.complete(subject)


async def fail(path, subject, text):
    async with await aio.connect(path) as client:
        await client.fail(subject, text)


async def refused(path, count):
    hold_many()
    async with await aio.connect(path) as client:
        calls = [client.publish("s", "a") for _ in range(int(count))]
        for refusal in await asyncio.gather(*calls, return_exceptions=True):
            tell(type(refusal).__name__, refusal.sentence)


async def misuse(path):
    async with await aio.connect(path) as client:
        for subject, text in MISUSES:
            try:
                await client.publish(subject, text)
            except Exception as fault:
                tell(kind_of(fault))
        for room in ROOMS:
            try:
                await client.subscribe("s", strategy_of(room))
            except Exception as fault:
                tell(kind_of(fault))
    try:
        await aio.connect(path + ".none")
    except Exception as fault:
        tell(kind_of(fault))


async def waits(path):
    async with await aio.connect(path, timeout=0.1) as client:
        for call in (client.ping, lambda: client.publish("s", "a")):
            try:
                await call()
            except Exception as fault:
                tell(kind_of(fault))
        try:
            await client.publish_many("s", ["a", "b"])
        except rxline.NotAllPublished as outcome:
            tell(outcome.accepted, len(outcome.unanswered), kind_of(outcome.__cause__))


async def quiet(path):
    async with await aio.connect(path) as client, await client.subscribe("p", timeout=0.1) as notes:
        try:
            await notes.__anext__()
        except rxline.TimedOut as fault:
            tell(kind_of(fault))
        await client.publish("p", "a")
        notes.timeout = None
        tell(*words_of(await notes.__anext__()))


async def idle(path, patience):
    async with await aio.connect(path, patience=float(patience)) as client, await client.subscribe("p") as notes:
        tell("joined")
        try:
            await notes.__anext__()
        except rxline.RxlineError as fault:
            tell(kind_of(fault))
        sys.stdin.readline()
        await client.ping()
        tell("pinged")
        sys.stdin.readline()  # nothing is heard meanwhile, not even the end
        tell("published", await client.publish_many("p", ["a", "b"]))


async def slow(path):
    async with await aio.connect(path, patience=0) as client, await client.subscribe("p", rxline.bounded(64)) as notes:
        tell("joined")
        await asyncio.get_running_loop().run_in_executor(None, sys.stdin.readline)
        async for note in notes:
            if not isinstance(note, rxline.Item):
                tell(*words_of(note))


async def many(path, subject):
    async with await aio.connect(path) as client:
        try:
            tell("accepted", await client.publish_many(subject, texts()))
        except rxline.NotAllPublished as outcome:
            refused = [f"{at}:{type(refusal).__name__}" for at, refusal in outcome.refused.items()]
            left = len(outcome.unanswered)
            tell("accepted", outcome.accepted, "refused", *refused, "unanswered", left, kind_of(outcome.__cause__))


async def shared(path, count):
    async with await aio.connect(path) as client, await client.subscribe("p") as notes:

        async def emit():
            await asyncio.gather(*(client.publish("p", "a") for _ in range(int(count))))

        emitting = asyncio.gather(*(emit() for _ in range(4)))
        heard = 0
        while heard < 4 * int(count):
            heard += (await notes.__anext__()).text == b"a"
        tell(heard)
        await emitting
        asyncio.get_running_loop().call_later(0.1, lambda: asyncio.ensure_future(notes.close()))
        tell(*[note async for note in notes])


if __name__ == "__main__":
    asyncio.run(globals()[sys.argv[1]](*sys.argv[2:]))
