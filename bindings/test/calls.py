"""What the scripts do not show of the Python module: ports, budgets, counts, texts of each kind, defaults, sentences, an iterator
for each observer, and threads. With the word `sentences` it prints those alone. It prints the lines that are otherwise than wanted.
"""

import os
import subprocess
import sys
import threading
import time

import hazoxe
from hazoxe import MOST, SENTENCES, Cause, Counts, Errors, Kind, Note, NoteKind, Refused, Strategy, Subject

wrong = 0


def expect(what, got, wanted):
    global wrong
    if got != wanted:
        print(f"{what}: {got!r:.300} in place of {wanted!r:.300}")
        wrong = 1


def raised(call):
    """The cause for which a call is refused, or the kind of its exception."""
    try:
        call()
    except Refused as refused:
        return refused.cause
    except Exception as fault:
        return type(fault)
    return None


def item(observer, place, text, port=0):
    return Note(observer, NoteKind.NEXT, port, place, text)


def texts_ports_and_seeds():
    subject = Subject(Kind.BEHAVIOR, seed=b"")
    subject.join(first=MOST)
    texts = [b"", b"a\0b\0", bytearray(b"of an array"), memoryview(b"of a view")[5:], b"\xff" * 1024]
    for port, text in enumerate(texts, 7):
        subject.next(text, port=port)
    subject.error(bytearray(b"over\0"), port=9)
    wanted = [item(0, MOST, b"", MOST)]
    wanted += [item(0, place, bytes(text), 7 + place) for place, text in enumerate(texts)]
    expect("what is given", list(subject.given()), wanted + [Note(0, NoteKind.FAILED, 0, 0, b"over\0")])
    for call in (lambda: subject.next("text"), lambda: subject.next(5), lambda: subject.error("text")):
        expect("a text that is no bytes", raised(call), TypeError)
    expect("a seed that is no bytes", raised(lambda: Subject(Kind.BEHAVIOR, seed="s")), TypeError)
    try:
        Subject().next("text")
    except TypeError as fault:
        expect("what it tells", "text.encode()" in str(fault), True)


def refusals():
    subject = Subject()
    rows = [
        (lambda: Subject(Kind.PUBLISH, seed=b""), Cause.BAD_SEED),
        (lambda: Subject(Kind.PUBLISH, count=1), Cause.BAD_COUNT),
        (lambda: Subject(Kind.REPLAY, count=0), Cause.BAD_COUNT),
        (lambda: Subject(Kind.REPLAY, age=0), Cause.BAD_AGE),
        (lambda: Subject(observers=65), Cause.BAD_LIMITS),
        (lambda: Subject(budget=1), Cause.MEMORY),
        (lambda: Subject(2), ValueError),
        (lambda: subject.join(9), ValueError),
        (lambda: subject.next(b"", port=MOST + 1), ValueError),
        (lambda: subject.next(b"a" * 1025), Cause.TOO_LONG),
        (lambda: subject.error(b"\n"), Cause.HAS_LF),
        (lambda: subject.join(Strategy.BUFFER, 1), Cause.BAD_ROOM),
        (lambda: subject.join(Strategy.LATEST, 0), Cause.BAD_ROOM),
        (lambda: subject.waiting(0), Cause.NO_OBSERVER),
    ]
    for place, (call, wanted) in enumerate(rows):
        expect(f"refusal {place}", raised(call), wanted)
    try:
        subject.join(Strategy.DROP, 1025)
    except Refused as refused:
        expect("its text", str(refused), "BAD_ROOM: " + SENTENCES[Cause.BAD_ROOM])
    expect("each cause has a sentence", set(SENTENCES), set(Cause))


def joins_by_default():
    """A room that is not told is the least, and an error stands behind the items that wait."""
    subject = Subject()
    for strategy in Strategy:
        subject.join(strategy)
    for text in (b"a", b"b"):
        subject.next(text)
    expect("what waits", [subject.waiting(who) for who in range(4)], [2, 0, 1, 0])
    subject.error(b"x")
    ends = [Note(3, NoteKind.FAILED, 0, 0, b"OVERFLOW"), Note(1, NoteKind.FAILED, 0, 0, b"x")]
    expect("who waits for nothing", list(subject.given()), ends)
    subject.request(0, 9)
    expect("who waits", list(subject.given()), [item(0, 0, b"a"), item(0, 1, b"b"), Note(0, NoteKind.FAILED, 0, 0, b"x")])


def counts_and_waiting():
    subject = Subject(observers=3, budget=20_000)
    some = [subject.join(first=1), subject.join(), subject.join(errors=Errors.AHEAD)]
    subject.dispose(some[2].number)
    for text in (b"a", b"b", b"c"):
        subject.next(text)
    expect("what waits for each", [some[0].waiting(), some[1].waiting(), subject.waiting(1)], [2, 3, 3])
    expect("counts", subject.counts(), Counts(2, 3, 1, 0))
    expect("a budget's end", raised(lambda: [subject.next(b"a" * 1024) for _ in range(100)]), Cause.MEMORY)
    expect("what waits is bounded", 3 <= some[1].waiting() < 40, True)
    expect("its picture", repr(subject).startswith("<Subject PUBLISH: Counts(observers=2, joins=3, given=1, misses="), True)
    expect("an observer's", repr(some[1]).startswith("<Observer 1 of <Subject PUBLISH"), True)
    subject.close()
    expect("of a closed one", repr(subject), "<Subject PUBLISH: closed>")
    expect("a call behind it", raised(lambda: subject.next(b"a")), Cause.NO_SUBJECT)


def each_observer_has_its_notes():
    subject = Subject()
    some = [subject.join(first=MOST) for _ in range(3)]
    for text in (b"a", b"b", b"c"):
        subject.next(text)
    expect("its own", [next(some[1].given()), next(some[1].given())], [item(1, 0, b"a"), item(1, 1, b"b")])
    expect("all count", subject.counts().given, 7)
    expect("the others", list(some[0].given()), [item(0, 0, b"a"), item(0, 1, b"b"), item(0, 2, b"c")])
    subject.next(b"d")
    rest = [(2, 0, b"a"), (2, 1, b"b"), (1, 2, b"c"), (2, 2, b"c"), (0, 3, b"d"), (1, 3, b"d"), (2, 3, b"d")]
    expect("what is left, in its order", list(subject.given()), [item(*each) for each in rest])
    expect("none is left", [subject.counts().given, *map(list, (each.given() for each in some))], [0, [], [], []])


def in_threads(*works):
    """Runs each of them in a thread of its own. What they raised."""
    faults = []

    def run(work):
        try:
            work()
        except Exception as fault:
            faults.append(fault)

    threads = [threading.Thread(target=run, args=(work,)) for work in works]
    for thread in threads:
        thread.start()
    for thread in threads:
        thread.join()
    return faults


def threads_share_a_subject():
    """Four emit and two take by one observer each, all at one subject: no call is refused, and each observer hears each producer's
    items in their order, once."""
    subject, items = Subject(), 5_000
    heard = {observer.number: [] for observer in (subject.join(first=MOST), subject.join(first=MOST))}

    def emits(port):
        for number in range(items):
            subject.next(b"%d" % number, port=port)

    def takes(who):
        until = time.monotonic() + 60
        while len(heard[who]) < 4 * items and time.monotonic() < until:
            heard[who].extend(hazoxe.Observer(subject, who).given())

    works = [lambda port=port: emits(port) for port in range(4)] + [lambda who=who: takes(who) for who in heard]
    expect("faults in threads", in_threads(*works)[:1], [])
    for who, notes in heard.items():
        expect("places", [note.place for note in notes], list(range(4 * items)))
        for port in range(4):
            expect("of a port", [note.text for note in notes if note.port == port], [b"%d" % n for n in range(items)])


def no_library():
    """Without its file the module says how it is built."""
    places = {"HAZOXE": "/nowhere.so", "PYTHONPATH": os.path.dirname(hazoxe.__file__)}
    told = subprocess.run([sys.executable, "-c", "import hazoxe"], env=places, stderr=subprocess.PIPE, text=True)
    expect("how it is built", "ImportError: hazoxe: " in told.stderr and "`./install PREFIX`" in told.stderr, True)


def main():
    if sys.argv[1:] == ["sentences"]:
        for cause in Cause:
            print(cause.value, SENTENCES[cause])
        return
    texts_ports_and_seeds()
    refusals()
    joins_by_default()
    counts_and_waiting()
    each_observer_has_its_notes()
    threads_share_a_subject()
    no_library()
    sys.exit(wrong)


main()
