/* Runs a script of one subject over the library, and prints what `rxline script` prints for it in the second version of
 * notes. The words of the command line are the subject: KIND COUNT AGE OBSERVERS JOINS ITEMS, and the seed where it has one. */
#include "hazoxe.h"
#include <inttypes.h>
#include <stdio.h>
#include <stdlib.h>
#include <string.h>

static hazoxe_subject subject = HAZOXE_EMPTY;
static uint64_t at = 0;

static uint32_t number(const char *word) { return (uint32_t)strtoul(word, NULL, 10); }

static uint32_t join(char *line) {
    static const char *const names[] = {"BUFFER", "DROP", "LATEST", "BOUNDED"};
    char *strategy = strtok(line, " ");
    char *errors = strtok(NULL, " ");
    char *first = strtok(NULL, " ");
    char *room = strchr(strategy, ':');
    uint32_t which = 0, who = 0;
    if (room != NULL) *room++ = '\0';
    while (which < 4 && strcmp(strategy, names[which]) != 0) which++;
    uint32_t code = hazoxe_join(&subject, which, room == NULL ? 0 : number(room),
                                strcmp(errors, "AHEAD") == 0 ? HAZOXE_AHEAD : HAZOXE_DELAY, number(first), at, &who);
    if (code == HAZOXE_OK) printf("OK %" PRIu32 "\n", who);
    return code;
}

static uint32_t carry_out(char *line, int *is_told) {
    char *text = strchr(line, ' ');
    char *rest = text == NULL ? NULL : strchr(text + 1, ' ');
    if (strncmp(line, "PUB ", 4) == 0) return hazoxe_next(&subject, 0, at, rest + 1, strlen(rest + 1));
    if (strncmp(line, "FAIL ", 5) == 0) return hazoxe_error(&subject, 0, at, rest + 1, strlen(rest + 1));
    if (strncmp(line, "END ", 4) == 0) return hazoxe_complete(&subject, 0, at);
    if (strncmp(line, "DISPOSE ", 8) == 0) return hazoxe_dispose(&subject, number(rest + 1));
    if (strncmp(line, "REQUEST ", 8) == 0) return hazoxe_request(&subject, number(rest + 1), number(strchr(rest + 1, ' ') + 1));
    if (strncmp(line, "AT ", 3) == 0) at = strtoull(text + 1, NULL, 10);
    if (strncmp(line, "JOIN ", 5) != 0) return HAZOXE_OK; /* AT and HELLO */
    *is_told = 1;
    return join(rest + 1);
}

static void answer(char *line) {
    static const char *const words[] = {"OK", "ENDED", "FULL", "SPENT", "ZERO", "OBSERVER", "TOOMUCH", "MEMORY"};
    int is_told = 0;
    uint32_t code = carry_out(line, &is_told);
    if (code == HAZOXE_TOO_LONG) printf("ERR LONG\n");
    else if (code > HAZOXE_MEMORY) printf("ERR SYNTAX\n");
    else if (code != HAZOXE_OK) printf("ERR %s\n", words[code]);
    else if (!is_told) printf("OK\n");
}

static void print(const hazoxe_note *note, const char *text) {
    printf("s %" PRIu32, note->observer);
    if (note->kind == HAZOXE_COMPLETED) printf(" DONE");
    if (note->kind == HAZOXE_FAILED) printf(" FAILED ");
    if (note->kind == HAZOXE_NEXT && note->place == HAZOXE_SEED) printf(" NEXT - - ");
    if (note->kind == HAZOXE_NEXT && note->place != HAZOXE_SEED) printf(" NEXT %" PRIu32 " %" PRIu32 " ", note->place, note->port);
    fwrite(text, 1, note->length, stdout);
    printf("\n");
}

/* Takes the first note, where there is one: a buffer that is one byte too small first, which is to leave it. */
static void print_one(void) {
    hazoxe_note note;
    char text[1024];
    if (hazoxe_peek(&subject, &note) != HAZOXE_OK) return;
    size_t length = note.length;
    if (length > 0 && hazoxe_take(&subject, &note, text, length - 1) != HAZOXE_BUFFER_TOO_SMALL) abort();
    if (hazoxe_take(&subject, &note, text, length) != HAZOXE_OK || note.length != length) abort();
    print(&note, text);
}

/* Takes one note alone and then up to three at a time, until none waits. */
static void print_given(void) {
    hazoxe_note notes[3];
    char texts[1040];
    hazoxe_taken taken;
    print_one();
    do {
        char *text = texts;
        if (hazoxe_take_many(&subject, notes, 3, texts, sizeof texts, &taken) != HAZOXE_OK) abort();
        for (size_t place = 0; place < taken.notes; place++) {
            print(&notes[place], text);
            text += notes[place].length;
        }
        if (text != texts + taken.bytes) abort();
    } while (taken.notes > 0);
}

int main(int count, char **words) {
    hazoxe_rules rules = {.kind = number(words[1]), .count = number(words[2]), .age = strtoull(words[3], NULL, 10),
                          .observers = number(words[4]), .joins = number(words[5]), .items = number(words[6])};
    const char *seed = count > 7 ? words[7] : NULL;
    static char line[2048];
    if (hazoxe_open(&subject, &rules, seed, seed == NULL ? 0 : strlen(seed)) != HAZOXE_OK) return 1;
    while (fgets(line, sizeof line, stdin) != NULL) {
        line[strcspn(line, "\n")] = '\0';
        answer(line);
        print_given();
    }
    return hazoxe_close(&subject) == HAZOXE_OK ? 0 : 1;
}
