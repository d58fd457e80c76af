/* A first program over the library: makes one step, prints the next card and the patterns that may still come.
 *
 *     step SHEET CARD EVENT
 *
 * Status 0: taken. 1: refused, with number, paper and line. 2: something else went wrong. include/reambodkin.h says how
 * the archive is made and linked. */
#include <inttypes.h>
#include <stdio.h>

#include "reambodkin.h"

enum { TAKEN, REFUSED, FAILED };

/* A paper from a file. There is room for one byte more than the library takes, so that a longer one is refused as LONG. */
static uint8_t sheet[REAMBODKIN_SHEET_MAX + 1], card[REAMBODKIN_CARD_MAX + 1], event[REAMBODKIN_EVENT_MAX + 1];

static int read_paper(const char *name, uint8_t *bytes, size_t room, size_t *length) {
    FILE *file = fopen(name, "rb");
    if (file == NULL) {
        perror(name);
        return 0;
    }
    *length = fread(bytes, 1, room, file);
    int good = !ferror(file);
    if (!good) perror(name);
    fclose(file);
    return good;
}

static void print_refusal(const uint64_t *reply) {
    printf("refused: number %" PRIu64 ", paper %" PRIu64 ", line %" PRIu64 "\n", reply[0], reply[1], reply[2]);
}

/* The papers are taken by one request exactly when the other takes them; the outlook alone can then still be too large. */
static int answer(size_t sheet_len, size_t card_len, size_t event_len) {
    static uint8_t next[REAMBODKIN_STEP_OUT];
    static uint32_t patterns[REAMBODKIN_OUTLOOK_OUT];
    uint64_t reply[REAMBODKIN_REPLY];

    if (reambodkin_step(sheet, sheet_len, card, card_len, event, event_len, next, REAMBODKIN_STEP_OUT, reply,
                        REAMBODKIN_REPLY) != REAMBODKIN_TAKEN) {
        print_refusal(reply);
        return REFUSED;
    }
    fwrite(next, 1, (size_t)reply[3], stdout);

    if (reambodkin_outlook(sheet, sheet_len, card, card_len, event, event_len, patterns, REAMBODKIN_OUTLOOK_OUT, reply,
                           REAMBODKIN_REPLY) != REAMBODKIN_TAKEN) {
        printf("no outlook; ");
        print_refusal(reply);
        return TAKEN;
    }
    for (uint64_t i = 0; i < reply[3]; i++) printf("pattern %" PRIu32 "\n", patterns[i]);
    return TAKEN;
}

int main(int count, char **words) {
    size_t sheet_len, card_len, event_len;
    if (count != 4) {
        fprintf(stderr, "usage: %s SHEET CARD EVENT\n", count > 0 ? words[0] : "step");
        return FAILED;
    }
    if (!read_paper(words[1], sheet, sizeof sheet, &sheet_len) || !read_paper(words[2], card, sizeof card, &card_len) ||
        !read_paper(words[3], event, sizeof event, &event_len)) {
        return FAILED;
    }
    int status = answer(sheet_len, card_len, event_len);
    if (fflush(stdout) != 0 || ferror(stdout)) {
        perror("step");
        return FAILED;
    }
    return status;
}
