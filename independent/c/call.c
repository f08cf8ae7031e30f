/* Calls the library from C on a plan file of two levels: `call FILE`. */
#include "zorillawootz.h"

#include <inttypes.h>
#include <stdio.h>
#include <string.h>

/* No plan file of two levels is longer; one byte more shows what is. */
#define FILE_BYTES 137
#define PAGE_BYTES 1024
#define WORDS 16
#define ALIASES 65536

/* Prints what a call returned, and whether that was no refusal. */
static int answered(const char *call, struct Outcome outcome)
{
    if (outcome.refusal != 0) {
        printf("%s: refused %" PRIu32 "\n", call, outcome.refusal);
        return 0;
    }
    printf("%s: %" PRIu64 "\n", call, outcome.value);
    return 1;
}

static void print_codes(const uint64_t *codes, uint64_t count)
{
    for (uint64_t i = 0; i < count; i++)
        printf(" %" PRIu64, codes[i]);
    printf("\n");
}

int main(int argc, char **argv)
{
    static uint8_t file[FILE_BYTES + 1];
    static uint8_t page[PAGE_BYTES];
    static uint64_t aliases[ALIASES];
    const uint16_t costs[32] = {0};
    uint64_t words[WORDS] = {0};
    uint64_t before[WORDS];
    struct Outcome outcome;

    FILE *input = argc == 2 ? fopen(argv[1], "rb") : NULL;
    if (input == NULL) {
        fprintf(stderr, "usage: call FILE\n");
        return 2;
    }
    size_t bytes = fread(file, 1, sizeof file, input);
    fclose(input);

    outcome = zorilla_page(file, bytes, page, sizeof page);
    if (!answered("page", outcome))
        return 1;
    fwrite(page, 1, outcome.value, stdout);

    outcome = zorilla_choose(ZORILLA_TWO_LEVELS, file, bytes, ZORILLA_BLOCK, ZORILLA_LEAST_ABERRATION,
                             costs, words, WORDS);
    if (!answered("block generators of least aberration", outcome))
        return 1;
    print_codes(words, outcome.value);

    outcome = zorilla_aliases(ZORILLA_TWO_LEVELS, file, bytes, 6, aliases, ALIASES);
    if (!answered("aliases of 6", outcome))
        return 1;
    print_codes(aliases, outcome.value);

    /* a refusal of the plan */
    outcome = zorilla_word(ZORILLA_TWO_LEVELS, file, bytes, ZORILLA_DEFINING, 0);
    answered("word 0 of the defining side", outcome);
    if (outcome.refusal != ZORILLA_PLACE || outcome.value != 0)
        return 1;

    /* a number that stands for no side, with memory as it was */
    memcpy(before, words, sizeof words);
    outcome = zorilla_choose(ZORILLA_TWO_LEVELS, file, bytes, 2, ZORILLA_SHORTEST, costs, words, WORDS);
    answered("generators of side 2", outcome);
    if (outcome.refusal != ZORILLA_UNKNOWN || outcome.value != 0 || memcmp(before, words, sizeof words) != 0)
        return 1;
    return 0;
}
