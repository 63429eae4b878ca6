"""What tests/clients has each client of events do, by `rxline.events`: it prints what it is told.

    follow WHERE SUBJECT STRATEGY SINCE EPOCH PATIENCE    each note behind its position, once it has told `joined`
    quiet WHERE SUBJECT                                   what is told where nothing comes in time, and what comes then
    newest WHERE SUBJECT                                  what is newest, asked for at each line of standard input
    emit WHERE SUBJECT                                    the texts of standard input, then an end: where each stands, or why not
    keyed WHERE SUBJECT                                   texts by keys, then an end by one: where each stands, or why not
    lined WHERE SUBJECT                                   several texts at once: where each stands, or why not
    misuse WHERE                                          how calls are refused
WHERE is a path or a URL; a word that is `-` is left out, as EPOCH is."""

import sys

import rxline.events
from client import follow_words, kind_of, tell, words_of


def words_for(*words):
    connecting, following = follow_words(*words)
    return {**following, "patience": connecting["patience"]}


def follow(where, subject, *words):
    with rxline.events.subscribe(where, subject, **words_for(*words)) as notes:
        tell("joined")
        for note in notes:
            tell(notes.position, *words_of(note))


def quiet(where, subject):
    with rxline.events.subscribe(where, subject, timeout=0.1) as notes:
        try:
            next(notes)
        except rxline.TimedOut as fault:
            tell(kind_of(fault))
        notes.timeout = None
        tell(*words_of(next(notes)))
        notes.close()
        tell(*notes)


def newest(where, subject):
    with rxline.events.subscribe(where, subject, rxline.latest(1), asks=True) as notes:
        tell("joined")
        for note in notes:
            tell(*words_of(note))
            if isinstance(note, rxline.Item):
                sys.stdin.readline()


def emit(where, subject):
    for line in sys.stdin.buffer:
        try:
            tell(rxline.events.publish(where, subject, line[:-1], timeout=5))
        except Exception as fault:
            tell(kind_of(fault))
    for end in (lambda: rxline.events.fail(where, subject, "no more"), lambda: rxline.events.complete(where, subject)):
        try:
            tell(end())
        except Exception as fault:
            tell(kind_of(fault))


KEYS = ["k", "k", "other", "k", "", "a b", "x" * 65]


def keyed(where, subject):
    for key in KEYS:
        try:
            tell(rxline.events.publish(where, subject, "a", key=key))
        except Exception as fault:
            tell(kind_of(fault))
    for _ in range(2):
        tell(rxline.events.complete(where, subject, key="end"))


LINED = [["a", "", "b\r"], [], ["x" * 1024, "c", "d"], ["e"], ["x"] * 257, ["x" * 1025], ["a\nb"]]


def lined(where, subject):
    for texts in LINED:
        try:
            tell(*rxline.events.publish_lines(where, subject, texts))
        except rxline.NotAllPublished as outcome:
            tell(outcome.accepted, *outcome.positions, *(f"{at}:{kind_of(fault)}" for at, fault in outcome.refused.items()))
        except Exception as fault:
            tell(kind_of(fault))


MISUSES = [("none", {}), ("S", {}), ("s", {"window": 17}), ("s", {"window": 0}), ("s", {"since": rxline.Position("-", 1)})]


def misuse(where):
    for subject, words in MISUSES:
        try:
            rxline.events.subscribe(where, subject, **words)
        except Exception as fault:
            tell(kind_of(fault))
    for other in (f"{where}.none", "http://?", "http://127.0.0.1:9"):
        try:
            rxline.events.subscribe(other, "s")
        except Exception as fault:
            tell(kind_of(fault))


if __name__ == "__main__":
    globals()[sys.argv[1]](*sys.argv[2:])
