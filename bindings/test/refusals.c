/* Each refusal of the library by its number, and what a refusal leaves. It prints the calls that answered another number. With the
 * word `sentences` it prints what each number means, and with `without_budget` it leaves out the budgets. */
#include "hazoxe.h"
#include <stdio.h>
#include <string.h>

static int wrong = 0;

static void expect(const char *what, unsigned long long got, unsigned long long wanted) {
    if (got == wanted) return;
    printf("%s: %llu in place of %llu\n", what, got, wanted);
    wrong = 1;
}

static hazoxe_rules rules_of(uint32_t kind, uint32_t count, uint64_t age) {
    hazoxe_rules rules = {.kind = kind, .count = count, .age = age, .observers = 1, .joins = 2, .items = 2};
    return rules;
}

static uint32_t opened(hazoxe_rules rules, const char *seed, size_t length) {
    hazoxe_subject subject = HAZOXE_EMPTY;
    uint32_t code = hazoxe_open(&subject, &rules, seed, length);
    if (code != HAZOXE_OK) expect("a refused open leaves the struct", hazoxe_close(&subject), HAZOXE_NO_SUBJECT);
    else hazoxe_close(&subject);
    return code;
}

static void open_refuses(void) {
    static char long_text[1025];
    hazoxe_rules limits = rules_of(HAZOXE_PUBLISH, 0, 0);
    memset(long_text, 'a', sizeof long_text);
    expect("kind", opened(rules_of(5, 9999, 1), "z", 1), HAZOXE_BAD_KIND);
    expect("seed", opened(rules_of(HAZOXE_PUBLISH, 1, 1), "z", 1), HAZOXE_BAD_SEED);
    expect("long seed", opened(rules_of(HAZOXE_SEEDED, 1, 1), long_text, 1025), HAZOXE_TOO_LONG);
    expect("seed of 1,024 bytes", opened(rules_of(HAZOXE_SEEDED, 0, 0), long_text, 1024), HAZOXE_OK);
    expect("seed of no bytes", opened(rules_of(HAZOXE_SEEDED, 0, 0), NULL, 0), HAZOXE_OK);
    expect("LF in a seed", opened(rules_of(HAZOXE_SEEDED, 1, 1), "\n", 1), HAZOXE_HAS_LF);
    expect("count of Async", opened(rules_of(HAZOXE_ASYNC, 1, 1), NULL, 0), HAZOXE_BAD_COUNT);
    expect("count of Replay", opened(rules_of(HAZOXE_REPLAY, 4097, 1), NULL, 0), HAZOXE_BAD_COUNT);
    expect("greatest count", opened(rules_of(HAZOXE_REPLAY, 4096, UINT64_MAX), NULL, 0), HAZOXE_OK);
    limits.age = 1;
    limits.observers = 65;
    expect("age", opened(limits, NULL, 0), HAZOXE_BAD_AGE);
    limits.age = 0;
    expect("observers", opened(limits, NULL, 0), HAZOXE_BAD_LIMITS);
    limits.observers = 64;
    limits.items = 0;
    expect("items", opened(limits, NULL, 0), HAZOXE_BAD_LIMITS);
}

static void calls_refuse(void) {
    static const char long_text[1025];
    hazoxe_subject subject = HAZOXE_EMPTY, garbage;
    hazoxe_rules rules = rules_of(HAZOXE_PUBLISH, 0, 0);
    hazoxe_note note = {7, 7, 7, 7, 7};
    hazoxe_counts counts = {7, 7, 7, 7};
    uint32_t who = 7;
    size_t count = 7;
    char buffer[8] = "unsaid";
    memset(&garbage, 0xa5, sizeof garbage);
    expect("next into none", hazoxe_next(&subject, 0, 0, "a", 1), HAZOXE_NO_SUBJECT);
    expect("next into garbage", hazoxe_next(&garbage, 0, 0, "a", 1), HAZOXE_NO_SUBJECT);
    expect("next into NULL", hazoxe_next(NULL, 0, 0, "a", 1), HAZOXE_NULL);
    expect("join of none", hazoxe_join(&subject, 9, 0, 0, 0, 0, &who), HAZOXE_NO_SUBJECT);
    expect("request of none", hazoxe_request(&subject, 0, 0), HAZOXE_NO_SUBJECT);
    expect("leave none", hazoxe_dispose(&subject, 0), HAZOXE_NO_SUBJECT);
    expect("complete none", hazoxe_complete(&subject, 0, 0), HAZOXE_NO_SUBJECT);
    expect("fail none", hazoxe_error(&subject, 0, 0, "\n", 1), HAZOXE_NO_SUBJECT);
    expect("take of none", hazoxe_take(&subject, &note, buffer, 8), HAZOXE_NO_SUBJECT);
    expect("peek at none", hazoxe_peek(&subject, &note), HAZOXE_NO_SUBJECT);
    expect("who waits at none", hazoxe_waiting(&subject, 0, &count), HAZOXE_NO_SUBJECT);
    expect("counts of none", hazoxe_count(&subject, &counts), HAZOXE_NO_SUBJECT);
    expect("dispatch of none", hazoxe_dispatch(&subject, NULL, 0), HAZOXE_NO_SUBJECT);
    expect("what stays where there is none", who == 7 && note.observer == 7 && note.kind == 7 && note.port == 7 && note.place == 7 &&
           note.length == 7 && count == 7 && strcmp(buffer, "unsaid") == 0, 1);
    expect("and of the counts", counts.observers == 7 && counts.joins == 7 && counts.given == 7 && counts.misses == 7, 1);
    expect("still none", subject.hidden == NULL && subject.mark == 0, 1);
    expect("open", hazoxe_open(&subject, &rules, NULL, 0), HAZOXE_OK);
    expect("open again", hazoxe_open(&subject, &rules, NULL, 0), HAZOXE_HOLDS_SUBJECT);
    expect("strategy", hazoxe_join(&subject, 4, 9999, 9, 0, 0, &who), HAZOXE_BAD_STRATEGY);
    expect("room of Buffer", hazoxe_join(&subject, HAZOXE_BUFFER, 1, 9, 0, 0, &who), HAZOXE_BAD_ROOM);
    expect("room of Latest", hazoxe_join(&subject, HAZOXE_LATEST, 0, 9, 0, 0, &who), HAZOXE_BAD_ROOM);
    expect("room past a short", hazoxe_join(&subject, HAZOXE_DROP, 65536, 9, 0, 0, &who), HAZOXE_BAD_ROOM);
    expect("error mode", hazoxe_join(&subject, HAZOXE_DROP, 1024, 2, 0, 0, &who), HAZOXE_BAD_ERRORS);
    expect("nothing given", hazoxe_peek(&subject, &note), HAZOXE_NOTHING_GIVEN);
    expect("nothing to take", hazoxe_take(&subject, &note, buffer, 8), HAZOXE_NOTHING_GIVEN);
    expect("who waits", hazoxe_waiting(&subject, 0, &count), HAZOXE_NO_OBSERVER);
    expect("what stays", who == 7 && note.length == 7 && count == 7 && strcmp(buffer, "unsaid") == 0, 1);
    expect("join", hazoxe_join(&subject, HAZOXE_LATEST, 1, HAZOXE_DELAY, 1, 0, &who), HAZOXE_OK);
    expect("its number", who, 0);
    expect("a second", hazoxe_join(&subject, HAZOXE_LATEST, 1, HAZOXE_DELAY, 1, 0, &who), HAZOXE_FULL);
    expect("long text", hazoxe_next(&subject, 0, 0, long_text, 1025), HAZOXE_TOO_LONG);
    expect("LF", hazoxe_error(&subject, 0, 0, "a\n", 2), HAZOXE_HAS_LF);
    expect("next", hazoxe_next(&subject, 3, 0, "abcd", 4), HAZOXE_OK);
    expect("next that waits", hazoxe_next(&subject, 4, 0, NULL, 0), HAZOXE_OK);
    expect("too many", hazoxe_next(&subject, 0, 0, "c", 1), HAZOXE_SPENT);
    expect("small buffer", hazoxe_take(&subject, &note, buffer, 3), HAZOXE_BUFFER_TOO_SMALL);
    expect("told of all the same", note.length == 4 && note.port == 3 && note.place == 0, 1);
    expect("buffer that fits", hazoxe_take(&subject, &note, buffer, 4), HAZOXE_OK);
    expect("its text, and no more", memcmp(buffer, "abcdid", 6), 0);
    expect("waiting", hazoxe_waiting(&subject, 0, &count), HAZOXE_OK);
    expect("how many", count, 1);
    expect("counts", hazoxe_count(&subject, &counts), HAZOXE_OK);
    expect("what is counted", counts.observers == 1 && counts.joins == 1 && counts.given == 0 && counts.misses == 0, 1);
    expect("no items", hazoxe_request(&subject, 9, 0), HAZOXE_ZERO_REQUEST);
    expect("no observer", hazoxe_request(&subject, 9, 1), HAZOXE_NO_OBSERVER);
    expect("request", hazoxe_request(&subject, 0, UINT32_MAX), HAZOXE_OK);
    expect("a text of no bytes", hazoxe_take(&subject, &note, NULL, 0), HAZOXE_OK);
    expect("its place and port", note.place == 1 && note.port == 4 && note.length == 0, 1);
    expect("more than can be owed", hazoxe_request(&subject, 0, 2), HAZOXE_TOO_MUCH);
    expect("an error of no bytes", hazoxe_error(&subject, 0, 0, NULL, 0), HAZOXE_OK);
    expect("complete behind it", hazoxe_complete(&subject, 0, 0), HAZOXE_ENDED);
    expect("close with a note left", hazoxe_close(&subject), HAZOXE_OK);
    expect("close again", hazoxe_close(&subject), HAZOXE_NO_SUBJECT);
}

/* What many notes are taken by, of "ab", "", "cde" and a completion, by room for so many notes and bytes. */
static void takes_as_many_as_there_is_room_for(void) {
    static const struct {
        size_t most, room, notes, bytes;
    } rows[] = {{0, 9, 0, 0}, {9, 0, 0, 0}, {9, 1, 0, 0}, {1, 9, 1, 2}, {9, 2, 2, 2}, {9, 4, 2, 2}, {3, 5, 3, 5}, {9, 5, 4, 5}, {4, 9, 4, 5}};
    hazoxe_rules rules = {.kind = HAZOXE_PUBLISH, .observers = 1, .joins = 1, .items = 9};
    hazoxe_taken none = {7, 7};
    hazoxe_subject no_subject = HAZOXE_EMPTY;
    expect("take many of none", hazoxe_take_many(&no_subject, NULL, 0, NULL, 0, &none), HAZOXE_NO_SUBJECT);
    expect("no place for notes", hazoxe_take_many(&no_subject, NULL, 1, NULL, 0, &none), HAZOXE_NULL);
    expect("no place for bytes", hazoxe_take_many(&no_subject, NULL, 0, NULL, 1, &none), HAZOXE_NULL);
    expect("no place for their number", hazoxe_take_many(&no_subject, NULL, 0, NULL, 0, NULL), HAZOXE_NULL);
    expect("it stays", none.notes == 7 && none.bytes == 7, 1);
    for (size_t row = 0; row < sizeof rows / sizeof rows[0]; row++) {
        hazoxe_subject subject = HAZOXE_EMPTY;
        hazoxe_note notes[9], note;
        hazoxe_taken taken;
        hazoxe_counts counts;
        char texts[10] = ".........";
        uint32_t who;
        memset(notes, 0xa5, sizeof notes);
        expect("open", hazoxe_open(&subject, &rules, NULL, 0), HAZOXE_OK);
        hazoxe_join(&subject, HAZOXE_BUFFER, 0, HAZOXE_DELAY, 9, 0, &who);
        hazoxe_next(&subject, 3, 0, "ab", 2);
        hazoxe_next(&subject, 4, 0, NULL, 0);
        hazoxe_next(&subject, 5, 0, "cde", 3);
        hazoxe_complete(&subject, 0, 0);
        expect("take many", hazoxe_take_many(&subject, notes, rows[row].most, texts, rows[row].room, &taken), HAZOXE_OK);
        expect("so many notes", taken.notes, rows[row].notes);
        expect("so many bytes", taken.bytes, rows[row].bytes);
        expect("their texts", memcmp(texts, "abcde", taken.bytes), 0);
        expect("the bytes behind the room", texts[rows[row].room], rows[row].room == 9 ? 0 : '.');
        for (uint32_t place = 0; place < taken.notes; place++) {
            expect("a kind", notes[place].kind, place == 3 ? HAZOXE_COMPLETED : HAZOXE_NEXT);
            expect("a port", notes[place].port, place == 3 ? 0 : place + 3);
            expect("a place", notes[place].place, place == 3 ? 0 : place);
            expect("a length", notes[place].length, (size_t[]){2, 0, 3, 0}[place]);
        }
        if (taken.notes < 9) expect("the struct behind them", notes[taken.notes].kind, 0xa5a5a5a5);
        hazoxe_count(&subject, &counts);
        expect("the others wait", counts.given, 4 - rows[row].notes);
        expect("the next", hazoxe_peek(&subject, &note), rows[row].notes == 4 ? HAZOXE_NOTHING_GIVEN : HAZOXE_OK);
        if (rows[row].notes < 3) expect("its place", note.place, rows[row].notes);
        hazoxe_close(&subject);
    }
}

/* What a handler heard. */
struct heard {
    char texts[32];
    hazoxe_subject *subject;
};

static void hear(void *context, const hazoxe_note *note, const char *text) {
    struct heard *heard = context;
    strncat(heard->texts, note->kind == HAZOXE_COMPLETED ? "." : text, note->kind == HAZOXE_COMPLETED ? 1 : note->length);
    if (heard->subject != NULL) hazoxe_request(heard->subject, note->observer, 1); /* one more, for each that came */
}

/* Each note goes to the handler of its observer, and the first that has none stays, with those behind it. */
static void dispatches(void) {
    hazoxe_subject subject = HAZOXE_EMPTY;
    hazoxe_rules rules = HAZOXE_RULES(HAZOXE_PUBLISH);
    hazoxe_note note = {7, 7, 7, 7, 7};
    struct heard all = {"", NULL}, some = {"", &subject};
    hazoxe_handler handlers[] = {{1, hear, &some}, {0, hear, &all}};
    uint32_t who;
    expect("open", hazoxe_open(&subject, &rules, NULL, 0), HAZOXE_OK);
    for (uint32_t observer = 0; observer < 3; observer++) {
        hazoxe_join(&subject, HAZOXE_BUFFER, 0, HAZOXE_DELAY, observer == 0 ? 9 : 1, 0, &who);
        if (observer == 1) hazoxe_next(&subject, 0, 0, "ab", 2);
    }
    hazoxe_next(&subject, 0, 0, "c", 1);
    expect("no handlers", hazoxe_dispatch(&subject, NULL, 1), HAZOXE_NULL);
    expect("a note that has no handler", hazoxe_dispatch(&subject, handlers, 2), HAZOXE_NO_OBSERVER);
    expect("the first heard", strcmp(all.texts, "abc"), 0);
    expect("the second asked for more in its handler", strcmp(some.texts, "ab"), 0);
    expect("it waits", hazoxe_peek(&subject, &note), HAZOXE_OK);
    expect("whose it is", note.observer, 2);
    hazoxe_take(&subject, &note, all.texts + 10, 9);
    expect("the others", hazoxe_dispatch(&subject, handlers, 2), HAZOXE_OK);
    expect("the second heard", strcmp(some.texts, "abc"), 0);
    hazoxe_complete(&subject, 0, 0);
    hazoxe_dispose(&subject, 2);
    expect("the end, to one that waits", hazoxe_dispatch(&subject, handlers, 1), HAZOXE_NO_OBSERVER);
    expect("close", hazoxe_close(&subject), HAZOXE_OK);
}

/* How many texts of 1,024 bytes a subject takes before a call is refused for want of memory. */
static size_t taken_until_memory(hazoxe_subject *subject) {
    static char text[1024];
    size_t count = 0;
    uint32_t code;
    while ((code = hazoxe_next(subject, 0, 0, text, sizeof text)) == HAZOXE_OK && count < 1000) count++;
    expect("the budget's end", code, HAZOXE_MEMORY);
    return count;
}

/* A budget of so many bytes, and one observer that requests so many items first. */
static hazoxe_subject with_budget(uint64_t budget, uint32_t first, uint32_t *who) {
    hazoxe_subject subject = HAZOXE_EMPTY;
    hazoxe_rules rules = HAZOXE_RULES(HAZOXE_PUBLISH);
    rules.observers = 1;
    rules.budget = budget;
    expect("open", hazoxe_open(&subject, &rules, NULL, 0), HAZOXE_OK);
    expect("join", hazoxe_join(&subject, HAZOXE_BUFFER, 0, HAZOXE_DELAY, first, 0, who), HAZOXE_OK);
    return subject;
}

/* A budget runs out, of what waits and of what was given and not taken; nothing is lost by it, and what goes gives its bytes
 * back. */
static void budget_is_kept(void) {
    for (uint32_t first = 0; first < 1000; first += 999) {
        uint32_t who;
        hazoxe_subject subject = with_budget(100000, first, &who);
        hazoxe_counts counts;
        size_t waits, count = taken_until_memory(&subject);
        expect("what a budget holds", count > 20 && count < 100, 1);
        expect("what waits", hazoxe_waiting(&subject, who, &waits), HAZOXE_OK);
        expect("counts", hazoxe_count(&subject, &counts), HAZOXE_OK);
        expect("nothing is lost", waits + counts.given, count);
        expect("where it waits", waits, first == 0 ? count : 0);
        expect("leave", hazoxe_dispose(&subject, who), HAZOXE_OK);
        for (hazoxe_note note; counts.given > 0; counts.given--) {
            char text[1024];
            expect("take", hazoxe_take(&subject, &note, text, sizeof text), HAZOXE_OK);
        }
        expect("bytes that came back", hazoxe_next(&subject, 0, 0, NULL, 0), HAZOXE_OK);
        expect("close", hazoxe_close(&subject), HAZOXE_OK);
    }
}

/* What a burst of 10,000 notes needed goes back to the budget once they are taken. */
static void a_burst_gives_its_bytes_back(void) {
    uint32_t who;
    hazoxe_subject fresh = with_budget(1000000, 0, &who), after = with_budget(1000000, 10000, &who);
    char text[1024];
    hazoxe_note note;
    for (int place = 0; place < 10000; place++) expect("next", hazoxe_next(&after, 0, 0, "a", 1), HAZOXE_OK);
    for (int place = 0; place < 10000; place++) expect("take", hazoxe_take(&after, &note, text, sizeof text), HAZOXE_OK);
    size_t wanted = taken_until_memory(&fresh), got = taken_until_memory(&after);
    expect("what the budget holds behind a burst", got + 20 > wanted && got < wanted + 20, 1);
    hazoxe_close(&fresh);
    hazoxe_close(&after);
}

/* A budget that holds no subject. */
static void no_budget_to_speak_of(void) {
    hazoxe_rules rules = HAZOXE_RULES(HAZOXE_PUBLISH);
    rules.budget = 1;
    expect("no budget to speak of", opened(rules, NULL, 0), HAZOXE_MEMORY);
}

static void print_sentences(void) {
    for (uint32_t code = HAZOXE_ENDED; code <= HAZOXE_NULL; code++) printf("%u %s\n", code, hazoxe_strerror(code));
}

int main(int count, char **words) {
    if (count > 1 && strcmp(words[1], "sentences") == 0) {
        print_sentences();
        return strcmp(hazoxe_strerror(HAZOXE_NULL + 1), "there is no such answer");
    }
    open_refuses();
    calls_refuse();
    takes_as_many_as_there_is_room_for();
    dispatches();
    if (count > 1) return wrong; /* the count of a budget is never given back, so valgrind runs without it */
    budget_is_kept();
    a_burst_gives_its_bytes_back();
    no_budget_to_speak_of();
    return wrong;
}
