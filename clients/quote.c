/* A small client: quotes the order in two files, as the dealers' program does, and shows the line at fault. */
#include <stdio.h>
#include <stdlib.h>

#include "muzbelari.h"

static const uint64_t budget = 1000000;

/* One byte more than a text may have is read too, so that a text that is too long is seen to be. */
static uint8_t rules[MUZBELARI_RULES + 1];
static uint8_t picks[MUZBELARI_PICKS + 1];

static size_t read_file(const char *path, uint8_t *bytes, size_t room) {
    FILE *file = fopen(path, "rb");
    if (file == NULL) {
        fprintf(stderr, "%s cannot be read\n", path);
        exit(1);
    }
    size_t length = fread(bytes, 1, room, file);
    fclose(file);
    return length;
}

static void show_faulty_line(size_t rules_length, size_t picks_length) {
    muzbelari_place place;
    if (!faulty_line_place(rules, rules_length, picks, picks_length, budget, &place)) {
        return;
    }
    const uint8_t *text = place.text == 1 ? rules : picks;
    fprintf(stderr, "line %zu of the %s: ", place.line, place.text == 1 ? "rules" : "picks");
    fwrite(text + place.start, 1, place.length, stderr);
    fputc('\n', stderr);
}

int main(int count, char **words) {
    uint8_t listing[MUZBELARI_LISTING];
    if (count != 3) {
        fprintf(stderr, "usage: %s RULES PICKS\n", words[0]);
        return 1;
    }
    size_t rules_length = read_file(words[1], rules, sizeof rules);
    size_t picks_length = read_file(words[2], picks, sizeof picks);
    size_t written = quote(rules, rules_length, picks, picks_length, budget, listing, sizeof listing);
    fwrite(listing, 1, written, stdout);
    show_faulty_line(rules_length, picks_length);
    return 0;
}
