"""What `client_events.py` does, by `rxline.aio.events`."""

import asyncio
import sys

import rxline
from client import kind_of, tell, words_of
from client_events import KEYS, LINED, MISUSES, words_for
from rxline.aio import events


async def follow(where, subject, *words):
    async with await events.subscribe(where, subject, **words_for(*words)) as notes:
        tell("joined")
        async for note in notes:
            tell(notes.position, *words_of(note))


async def quiet(where, subject):
    async with await events.subscribe(where, subject, timeout=0.1) as notes:
        try:
            await notes.__anext__()
        except rxline.TimedOut as fault:
            tell(kind_of(fault))
        notes.timeout = None
        tell(*words_of(await notes.__anext__()))
        await notes.close()
        tell(*[note async for note in notes])


async def newest(where, subject):
    async with await events.subscribe(where, subject, rxline.latest(1), asks=True) as notes:
        tell("joined")
        async for note in notes:
            tell(*words_of(note))
            if isinstance(note, rxline.Item):
                sys.stdin.readline()


async def emit(where, subject):
    for line in sys.stdin.buffer:
        try:
            tell(await events.publish(where, subject, line[:-1], timeout=5))
        except Exception as fault:
            tell(kind_of(fault))
    for end in (lambda: events.fail(where, subject, "no more"), lambda: events.complete(where, subject)):
        try:
            tell(await end())
        except Exception as fault:
            tell(kind_of(fault))


async def keyed(where, subject):
    for key in KEYS:
        try:
            tell(await events.publish(where, subject, "a", key=key))
        except Exception as fault:
            tell(kind_of(fault))
    for _ in range(2):
        tell(await events.complete(where, subject, key="end"))


async def lined(where, subject):
    for texts in LINED:
        try:
            tell(*await events.publish_lines(where, subject, texts))
        except rxline.NotAllPublished as outcome:
            tell(outcome.accepted, *outcome.positions, *(f"{at}:{kind_of(fault)}" for at, fault in outcome.refused.items()))
        except Exception as fault:
            tell(kind_of(fault))


async def misuse(where):
    for subject, words in MISUSES:
        try:
            await events.subscribe(where, subject, **words)
        except Exception as fault:
            tell(kind_of(fault))
    for other in (f"{where}.none", "http://?", "http://127.0.0.1:9"):
        try:
            await events.subscribe(other, "s")
        except Exception as fault:
            tell(kind_of(fault))


if __name__ == "__main__":
    asyncio.run(globals()[sys.argv[1]](*sys.argv[2:]))
