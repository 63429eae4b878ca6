/* Each allocation of a run refused in turn: the call that wanted it answers HAZOXE_MEMORY and leaves the subject as it was, so that
 * the same call goes through with memory, and the run ends as one to which nothing was refused. It prints what is otherwise. */
#include <stdio.h>
#include <stdlib.h>
#include <string.h>

static size_t asked, refused_at;

static int is_refused(void) { return asked++ == refused_at; }

static void *asked_malloc(size_t size) { return is_refused() ? NULL : malloc(size); }

static void *asked_realloc(void *at, size_t size) { return is_refused() ? NULL : realloc(at, size); }

#define malloc asked_malloc
#define realloc asked_realloc
#include "hazoxe_heap.c"
#undef malloc
#undef realloc
#include "hazoxe.h"

static int wrong = 0;

/* The notes that a run took, and how many calls found no memory. */
static size_t notes, refusals;

static int is_done(uint32_t code) {
    if (code == HAZOXE_MEMORY) refusals++;
    else if (code != HAZOXE_OK) wrong = 1, printf("with allocation %zu refused: %s\n", refused_at, hazoxe_strerror(code));
    return code != HAZOXE_MEMORY;
}

/* The call, again until it finds memory: the second time it does. */
#define UNTIL_DONE(call) \
    while (!is_done(call)) continue

static void run(void) {
    static char text[1024];
    hazoxe_subject subject = HAZOXE_EMPTY;
    hazoxe_rules rules = HAZOXE_RULES(HAZOXE_SEEDED);
    hazoxe_taken taken;
    hazoxe_note heads[9];
    uint32_t who;
    memset(text, 'a', sizeof text);
    rules.budget = 1000000;
    asked = notes = refusals = 0;
    UNTIL_DONE(hazoxe_open(&subject, &rules, text, 99));
    UNTIL_DONE(hazoxe_join(&subject, HAZOXE_BUFFER, 0, HAZOXE_DELAY, 3, 0, &who));
    UNTIL_DONE(hazoxe_join(&subject, HAZOXE_DROP, 5, HAZOXE_DELAY, 3, 0, &who));
    for (int i = 0; i < 20; i++) UNTIL_DONE(hazoxe_next(&subject, 0, 0, text, sizeof text));
    UNTIL_DONE(hazoxe_request(&subject, 0, 99));
    UNTIL_DONE(hazoxe_request(&subject, 1, 99));
    UNTIL_DONE(hazoxe_error(&subject, 0, 0, text, 999));
    do {
        static char texts[9 * 1024];
        is_done(hazoxe_take_many(&subject, heads, 9, texts, sizeof texts, &taken));
        notes += taken.notes;
    } while (taken.notes > 0);
    is_done(hazoxe_close(&subject));
}

int main(void) {
    refused_at = SIZE_MAX;
    run();
    size_t wanted = notes, allocations = asked;
    if (wanted != 1 + 20 + 1 + 1 + 7 + 1 || refusals > 0 || allocations < 10) {
        printf("a run: %zu notes, %zu refusals, %zu allocations\n", wanted, refusals, allocations);
        wrong = 1;
    }
    for (refused_at = 0; refused_at < allocations; refused_at++) {
        run();
        if (notes == wanted && refusals == 1) continue;
        printf("with allocation %zu refused: %zu notes, %zu refusals\n", refused_at, notes, refusals);
        wrong = 1;
    }
    return wrong;
}
