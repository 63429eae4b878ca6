/* Hazoxe for C: a subject of ReactiveX with backpressure.
 *
 * A subject passes each note from its producers to its observers, in order and once. Each observer says how many items it
 * wants, and how what it did not ask for yet is kept. What a subject gives waits in the order in which it was given, until
 * the program takes it, note by note. docs/LIBRARY.md has an example and says how to build and link; docs/BEHAVIOUR.md says
 * what each kind, strategy and error mode does.
 *
 * Each call answers a number: 0 where it did what it was called for, else one of those below, and then nothing has changed
 * but what is said at the call. A call refuses for the first cause that holds, in the order in which they stand there.
 * Each call returns: none waits, and none starts a thread.
 *
 * What a program owes, since no call can tell it:
 * - A hazoxe_subject begins as zeroes (HAZOXE_EMPTY), and is read, written and copied by these calls alone. A copy of one that
 *   holds a subject is a second owner of it: use neither after that.
 * - One call at a time for a subject. It may go to another thread between two calls, where a lock, a join or the like orders
 *   the two; two threads never call for one subject at once. Two subjects have nothing in common.
 * - A pointer that is not NULL points to what its type says, aligned, for as many bytes as the length beside it says; what
 *   a call writes lies apart from all else that it was handed.
 * - malloc, realloc and free are of one allocator, and align to 16 bytes what is a multiple of 16.
 * - No call from a signal handler, nor in the forked child of a process with threads.
 */
#ifndef HAZOXE_H
#define HAZOXE_H

#include <stddef.h>
#include <stdint.h>

#ifdef __cplusplus
extern "C" {
#endif

/* The version of this header, as MAJOR.MINOR.PATCH. */
#define HAZOXE_VERSION "0.1.0"

/* What a call came to. 1 to 7 are a subject's refusals, in its order; HAZOXE_MEMORY comes last in each call. */
#define HAZOXE_OK 0
#define HAZOXE_ENDED 1            /* the subject has ended */
#define HAZOXE_FULL 2             /* as many observers are held as may be */
#define HAZOXE_SPENT 3            /* as many joins, or items, were accepted as may be */
#define HAZOXE_ZERO_REQUEST 4     /* a request is for at least 1 item */
#define HAZOXE_NO_OBSERVER 5      /* no observer of that number is held */
#define HAZOXE_TOO_MUCH 6         /* more than 4,294,967,295 items would be owed */
#define HAZOXE_MEMORY 7           /* there was no memory, or the budget has no bytes left */
#define HAZOXE_NO_SUBJECT 8       /* the struct holds no subject */
#define HAZOXE_HOLDS_SUBJECT 9    /* the struct holds one already */
#define HAZOXE_BAD_KIND 10        /* there is no such kind */
#define HAZOXE_BAD_SEED 11        /* a seed for a kind that has none */
#define HAZOXE_BAD_COUNT 12       /* a count of more than 4,096, or for a kind that has none */
#define HAZOXE_BAD_AGE 13         /* an age for a kind that has none */
#define HAZOXE_BAD_LIMITS 14      /* not 1 to 64 observers, or no joins or items */
#define HAZOXE_TOO_LONG 15        /* a text of more than 1,024 bytes */
#define HAZOXE_HAS_LF 16          /* a text with a line feed */
#define HAZOXE_BAD_STRATEGY 17    /* there is no such strategy */
#define HAZOXE_BAD_ROOM 18        /* a room that the strategy does not have */
#define HAZOXE_BAD_ERRORS 19      /* there is no such error mode */
#define HAZOXE_NOTHING_GIVEN 20   /* no note waits to be taken */
#define HAZOXE_BUFFER_TOO_SMALL 21 /* the text has more bytes than the buffer */
#define HAZOXE_NULL 22            /* a pointer is NULL; of a text, one whose length is not 0 */

/* Kinds: what a joiner is given to begin with. */
#define HAZOXE_PUBLISH 0  /* nothing */
#define HAZOXE_BEHAVIOR 1 /* the last item, where there is one */
#define HAZOXE_SEEDED 2   /* the last item, else the seed: Behavior too */
#define HAZOXE_ASYNC 3    /* the last item, once the subject has completed */
#define HAZOXE_REPLAY 4   /* the last items, as many as count and age allow */

/* Strategies: what becomes of items that an observer did not request yet. */
#define HAZOXE_BUFFER 0  /* all wait; the room is 0 */
#define HAZOXE_DROP 1    /* the newest are lost, where the room of 0 to 1,024 items is full */
#define HAZOXE_LATEST 2  /* the oldest are, where the room of 1 to 1,024 items is full */
#define HAZOXE_BOUNDED 3 /* the observer ends by the error OVERFLOW, where the room of 0 to 1,024 items is full */

/* Error modes: where an error stands among the items that wait. */
#define HAZOXE_AHEAD 0 /* before them: they are never given */
#define HAZOXE_DELAY 1 /* behind them */

/* Kinds of note. */
#define HAZOXE_NEXT 0      /* an item */
#define HAZOXE_COMPLETED 1 /* completion; nothing comes after it */
#define HAZOXE_FAILED 2    /* an error; nothing comes after it */

/* The place and port of an item that is a seed. */
#define HAZOXE_SEED UINT32_MAX

/* A subject. */
typedef struct {
    void *hidden;
    uint64_t mark;
} hazoxe_subject;

#define HAZOXE_EMPTY {0, 0}

/* The subject that is asked for. */
typedef struct {
    uint64_t age;       /* Replay: only items younger than so many milliseconds; 0: of any age. Else 0 */
    uint64_t budget;    /* so many bytes at most its texts and lists take; 0: all that malloc gives. Some 50 bytes for the
                           count of them are never given back */
    uint32_t kind;      /* HAZOXE_PUBLISH to HAZOXE_REPLAY */
    uint32_t count;     /* Replay: at most so many items, up to 4,096; 0: as many as there are. Else 0 */
    uint32_t observers; /* the most held at a time, 1 to 64 */
    uint32_t joins;     /* the most in all, at least 1 */
    uint32_t items;     /* the most in all, at least 1 */
} hazoxe_rules;

/* Rules to begin with: a subject of this kind, with the greatest limits, no count, age or budget. */
#define HAZOXE_RULES(kind) {0, 0, (uint32_t)(kind), 0, 64, UINT32_MAX, UINT32_MAX}

/* A note that was given, without its text. */
typedef struct {
    uint32_t observer; /* the number of the observer that it was given to */
    uint32_t kind;     /* HAZOXE_NEXT to HAZOXE_FAILED */
    uint32_t port;     /* of an item: the port that it came by. Else 0 */
    uint32_t place;    /* of an item: how many items its subject accepted before it. Else 0 */
    size_t length;     /* how many bytes its text has: 0 to 1,024, of a completion 0 */
} hazoxe_note;

/* What was taken by one call. */
typedef struct {
    size_t notes; /* how many */
    size_t bytes; /* how many bytes their texts have */
} hazoxe_taken;

/* What can be counted of a subject. */
typedef struct {
    uint32_t observers; /* how many are held */
    uint32_t joins;     /* how many were accepted: the number of the next observer */
    size_t given;       /* how many notes wait to be taken */
    uint64_t misses;    /* how many events were refused by HAZOXE_MEMORY (one whose text found none is no event) */
} hazoxe_counts;

/* The proved library. A program calls what stands below it, by the names without `proved`, which test for NULL first. */
uint32_t hazoxe_proved_open(hazoxe_subject *subject, const hazoxe_rules *rules, const uint8_t *seed, size_t length);
uint32_t hazoxe_proved_close(hazoxe_subject *subject);
uint32_t hazoxe_proved_next(hazoxe_subject *subject, uint32_t port, uint64_t at, const uint8_t *text, size_t length);
uint32_t hazoxe_proved_complete(hazoxe_subject *subject, uint32_t port, uint64_t at);
uint32_t hazoxe_proved_error(hazoxe_subject *subject, uint32_t port, uint64_t at, const uint8_t *text, size_t length);
uint32_t hazoxe_proved_join(hazoxe_subject *subject, uint32_t strategy, uint32_t room, uint32_t errors, uint32_t first,
                            uint64_t at, uint32_t *who);
uint32_t hazoxe_proved_request(hazoxe_subject *subject, uint32_t who, uint32_t n);
uint32_t hazoxe_proved_dispose(hazoxe_subject *subject, uint32_t who);
uint32_t hazoxe_proved_peek(hazoxe_subject *subject, hazoxe_note *note);
uint32_t hazoxe_proved_take(hazoxe_subject *subject, hazoxe_note *note, uint8_t *buffer, size_t room);
uint32_t hazoxe_proved_take_many(hazoxe_subject *subject, hazoxe_note *notes, size_t most, uint8_t *buffer, size_t room,
                                 hazoxe_taken *taken);
uint32_t hazoxe_proved_waiting(hazoxe_subject *subject, uint32_t who, size_t *count);
uint32_t hazoxe_proved_count(hazoxe_subject *subject, hazoxe_counts *counts);

/* What the number that a call answered means, in a few words without a full stop; of a number that is none of them, that. */
static inline const char *hazoxe_strerror(uint32_t code) {
    static const char *const sentences[] = {
        "done",
        "the subject has ended",
        "as many observers are held as may be",
        "as many joins or items were accepted as may be",
        "a request is for at least 1 item",
        "no observer of that number is held",
        "more than 4294967295 items would be owed",
        "there is no memory, or the budget has no bytes left",
        "there is no subject, or it is closed",
        "there is a subject already",
        "there is no such kind",
        "a seed is for a Behavior alone",
        "a count is 1 to 4096, and for a Replay alone",
        "an age is at least 1 millisecond, and for a Replay alone",
        "limits are 1 to 64 observers, and at least 1 join and item",
        "a text has at most 1024 bytes",
        "a text has no line feed",
        "there is no such strategy",
        "a room has 0 to 1024 items, under Latest 1 to 1024, under Buffer 0",
        "there is no such error mode",
        "no note waits to be taken",
        "the text has more bytes than the buffer",
        "a pointer is NULL",
    };
    return code <= HAZOXE_NULL ? sentences[code] : "there is no such answer";
}

/* A text of no bytes, for one that is NULL. */
static inline const uint8_t *hazoxe_bytes(const void *text) {
    return text == NULL ? (const uint8_t *)"" : (const uint8_t *)text;
}

/* Makes the subject that is asked for, in a struct that holds none. The seed is a text for HAZOXE_SEEDED, and of no bytes for
 * the other kinds. HOLDS_SUBJECT, BAD_KIND, BAD_SEED, TOO_LONG, HAS_LF, BAD_COUNT, BAD_AGE, BAD_LIMITS, MEMORY. */
static inline uint32_t hazoxe_open(hazoxe_subject *subject, const hazoxe_rules *rules, const void *seed, size_t length) {
    if (subject == NULL || rules == NULL || (seed == NULL && length > 0)) return HAZOXE_NULL;
    return hazoxe_proved_open(subject, rules, hazoxe_bytes(seed), length);
}

/* Lets go of a subject, with the notes that were not taken. The struct then holds none. NO_SUBJECT. */
static inline uint32_t hazoxe_close(hazoxe_subject *subject) {
    if (subject == NULL) return HAZOXE_NULL;
    return hazoxe_proved_close(subject);
}

/* A producer emits an item: by a port, which is a number of the program's own, at a moment in milliseconds, which only Replay
 * with an age looks at. The text is copied. NO_SUBJECT, TOO_LONG, HAS_LF, MEMORY for the text, ENDED, SPENT, MEMORY. */
static inline uint32_t hazoxe_next(hazoxe_subject *subject, uint32_t port, uint64_t at, const void *text, size_t length) {
    if (subject == NULL || (text == NULL && length > 0)) return HAZOXE_NULL;
    return hazoxe_proved_next(subject, port, at, hazoxe_bytes(text), length);
}

/* A producer completes the subject, which takes no emission any more. NO_SUBJECT, ENDED, MEMORY. */
static inline uint32_t hazoxe_complete(hazoxe_subject *subject, uint32_t port, uint64_t at) {
    if (subject == NULL) return HAZOXE_NULL;
    return hazoxe_proved_complete(subject, port, at);
}

/* A producer ends the subject by an error of this text. NO_SUBJECT, TOO_LONG, HAS_LF, MEMORY for the text, ENDED, MEMORY. */
static inline uint32_t hazoxe_error(hazoxe_subject *subject, uint32_t port, uint64_t at, const void *text, size_t length) {
    if (subject == NULL || (text == NULL && length > 0)) return HAZOXE_NULL;
    return hazoxe_proved_error(subject, port, at, hazoxe_bytes(text), length);
}

/* An observer joins at a moment, with a request of `first` items, 0 or more. Its number is written to *who: from 0, in the
 * order of joining. NO_SUBJECT, BAD_STRATEGY, BAD_ROOM, BAD_ERRORS, FULL, SPENT, MEMORY; then *who stays. */
static inline uint32_t hazoxe_join(hazoxe_subject *subject, uint32_t strategy, uint32_t room, uint32_t errors, uint32_t first,
                                   uint64_t at, uint32_t *who) {
    if (subject == NULL || who == NULL) return HAZOXE_NULL;
    return hazoxe_proved_join(subject, strategy, room, errors, first, at, who);
}

/* Observer `who` requests n items more. NO_SUBJECT, ZERO_REQUEST, NO_OBSERVER, TOO_MUCH, MEMORY. */
static inline uint32_t hazoxe_request(hazoxe_subject *subject, uint32_t who, uint32_t n) {
    if (subject == NULL) return HAZOXE_NULL;
    return hazoxe_proved_request(subject, who, n);
}

/* Observer `who` leaves, with what waits for it. What it was given can still be taken. NO_SUBJECT, NO_OBSERVER. */
static inline uint32_t hazoxe_dispose(hazoxe_subject *subject, uint32_t who) {
    if (subject == NULL) return HAZOXE_NULL;
    return hazoxe_proved_dispose(subject, who);
}

/* Tells of the first note that waits to be taken, which stays. NO_SUBJECT, NOTHING_GIVEN; then *note stays. */
static inline uint32_t hazoxe_peek(hazoxe_subject *subject, hazoxe_note *note) {
    if (subject == NULL || note == NULL) return HAZOXE_NULL;
    return hazoxe_proved_peek(subject, note);
}

/* Takes that note: tells of it, and writes its text, without a NUL, to the front of a buffer of `room` bytes. NO_SUBJECT,
 * NOTHING_GIVEN, then *note stays; BUFFER_TOO_SMALL, then *note tells of the note, which waits on. The buffer stays. */
static inline uint32_t hazoxe_take(hazoxe_subject *subject, hazoxe_note *note, void *buffer, size_t room) {
    uint8_t none[1];
    if (subject == NULL || note == NULL || (buffer == NULL && room > 0)) return HAZOXE_NULL;
    return hazoxe_proved_take(subject, note, buffer == NULL ? none : (uint8_t *)buffer, room);
}

/* Takes the first notes that wait to be taken, as many as there are structs and bytes for: tells of each in one of `most`
 * structs, writes their texts, without a NUL, to the front of a buffer of `room` bytes, each behind the one before it, and to
 * *taken how many they are. That is none where no note waits, or where there is no struct, or too few bytes for the first text: so
 * with a struct and 1,024 bytes, none says that no note waits. The other notes wait on, and the structs behind those that were
 * filled stay; what then stands in the buffer behind the texts means nothing. NO_SUBJECT; then nothing is written. */
static inline uint32_t hazoxe_take_many(hazoxe_subject *subject, hazoxe_note *notes, size_t most, void *buffer, size_t room,
                                        hazoxe_taken *taken) {
    hazoxe_note no_note[1];
    uint8_t none[1];
    if (subject == NULL || taken == NULL || (notes == NULL && most > 0) || (buffer == NULL && room > 0)) return HAZOXE_NULL;
    return hazoxe_proved_take_many(subject, notes == NULL ? no_note : notes, most, buffer == NULL ? none : (uint8_t *)buffer, room,
                                   taken);
}

/* Writes to *count how many notes wait for an observer to request them, the terminal included. NO_SUBJECT, NO_OBSERVER; then
 * *count stays. */
static inline uint32_t hazoxe_waiting(hazoxe_subject *subject, uint32_t who, size_t *count) {
    if (subject == NULL || count == NULL) return HAZOXE_NULL;
    return hazoxe_proved_waiting(subject, who, count);
}

/* Writes to *counts what can be counted of the subject. NO_SUBJECT; then *counts stays. */
static inline uint32_t hazoxe_count(hazoxe_subject *subject, hazoxe_counts *counts) {
    if (subject == NULL || counts == NULL) return HAZOXE_NULL;
    return hazoxe_proved_count(subject, counts);
}

/* What the notes of one observer go to. */
typedef struct {
    uint32_t observer;                                                    /* its number */
    void (*call)(void *context, const hazoxe_note *note, const char *text); /* not NULL; the text has no NUL behind it */
    void *context;                                                        /* handed to each call */
} hazoxe_handler;

/* Takes each note that waits to be taken, in their order, and hands it to the handler of its observer, the first of `count`
 * that has its number: so none is lost to another observer's loop. A note whose observer has no handler waits on, with those
 * behind it. A handler may call for the subject, but not close it. NO_SUBJECT; NO_OBSERVER, at a note without a handler. */
static inline uint32_t hazoxe_dispatch(hazoxe_subject *subject, const hazoxe_handler *handlers, size_t count) {
    hazoxe_note note;
    uint8_t text[1024];
    uint32_t code;
    if (subject == NULL || (handlers == NULL && count > 0)) return HAZOXE_NULL;
    while ((code = hazoxe_proved_peek(subject, &note)) == HAZOXE_OK) {
        size_t place = 0;
        while (place < count && handlers[place].observer != note.observer) place++;
        if (place == count) return HAZOXE_NO_OBSERVER;
        code = hazoxe_proved_take(subject, &note, text, sizeof text);
        if (code != HAZOXE_OK) return code;
        handlers[place].call(handlers[place].context, &note, (const char *)text);
    }
    return code == HAZOXE_NOTHING_GIVEN ? HAZOXE_OK : code;
}

#ifdef __cplusplus
}
#endif

#endif
