/* A subject with one observer that asks for one item and then for the rest. It prints:
 *
 *     0 NEXT hello
 *     0 NEXT world
 *     0 COMPLETED
 */
#include "hazoxe.h"
#include <stdio.h>

/* Prints each note that was given, and takes it. No text has more than 1,024 bytes. */
static void print_given(hazoxe_subject *subject) {
    static const char *const kinds[] = {"NEXT", "COMPLETED", "FAILED"};
    hazoxe_note note;
    char text[1024];
    while (hazoxe_take(subject, &note, text, sizeof text) == HAZOXE_OK) {
        printf("%u %s", note.observer, kinds[note.kind]);
        if (note.length > 0) printf(" %.*s", (int)note.length, text);
        printf("\n");
    }
}

int main(void) {
    hazoxe_subject subject = HAZOXE_EMPTY;
    hazoxe_rules rules = HAZOXE_RULES(HAZOXE_REPLAY);
    uint32_t who, code;
    rules.count = 16;
    code = hazoxe_open(&subject, &rules, NULL, 0);
    if (code != HAZOXE_OK) {
        fprintf(stderr, "not opened: %s\n", hazoxe_strerror(code));
        return 1;
    }
    hazoxe_next(&subject, 0, 0, "hello", 5); /* no observer yet, but Replay keeps it */
    hazoxe_join(&subject, HAZOXE_BUFFER, 0, HAZOXE_DELAY, 1, 0, &who);
    hazoxe_next(&subject, 0, 0, "world", 5); /* waits: one item was asked for */
    print_given(&subject);
    hazoxe_request(&subject, who, 10);
    hazoxe_complete(&subject, 0, 0);
    print_given(&subject);
    return hazoxe_close(&subject) == HAZOXE_OK ? 0 : 1;
}
