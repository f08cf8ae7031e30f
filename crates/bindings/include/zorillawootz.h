/* The exports of Zorillawootz for C callers; docs/bindings.md says what each argument and each value is.
 *
 * A file, a list and memory are two arguments each: a pointer, which is not null, and how many numbers there are. */
#ifndef ZORILLAWOOTZ_H
#define ZORILLAWOOTZ_H

#include <stddef.h>
#include <stdint.h>

#ifdef __cplusplus
extern "C" {
#endif

/* Refusal 0 and the answer, or the number of the refusal and 0. */
struct Outcome {
    uint32_t refusal;
    uint64_t value;
};

/* What is refused; a refused call leaves memory as it was. */
enum zorilla_refusal {
    ZORILLA_FACTORS = 1,    /* the number of factors is not from 1 to 32 */
    ZORILLA_ILLEGAL = 2,    /* a code is illegal */
    ZORILLA_GENERATED = 3,  /* the word is generated already */
    ZORILLA_LIMIT = 4,      /* there would be more words than the limit */
    ZORILLA_PLACE = 5,      /* there is no word at this place */
    ZORILLA_MEMORY = 6,     /* the memory is shorter than the answer */
    ZORILLA_CUT = 7,        /* the file is cut short */
    ZORILLA_MARK = 8,       /* the file's mark is not DWF */
    ZORILLA_VERSION = 9,    /* the file's version is not 1 */
    ZORILLA_LEVELS = 10,    /* the file's levels are not the plan's */
    ZORILLA_SURPLUS = 11,   /* bytes follow the end of the file's content */
    ZORILLA_LAST = 12,      /* the number is past the last */
    ZORILLA_UNKNOWN = 255   /* a number stands for no levels, no side or no preference */
};

/* Numbers of levels. */
enum zorilla_levels {
    ZORILLA_TWO_LEVELS = 2,
    ZORILLA_THREE_LEVELS = 3
};

/* Sides. */
enum zorilla_side {
    ZORILLA_DEFINING = 0,
    ZORILLA_BLOCK = 1
};

/* Preferences; the first two are the scored ones. */
enum zorilla_preference {
    ZORILLA_SHORTEST = 0,
    ZORILLA_CHEAPEST = 1,
    ZORILLA_LEAST_ABERRATION = 2,
    ZORILLA_LONGEST = 3,
    ZORILLA_CHEAPEST_THEN_LEAST_ABERRATION = 4
};

/* Verdicts on two words. */
enum zorilla_verdict_value {
    ZORILLA_EQUAL = 0,
    ZORILLA_FIRST = 1,
    ZORILLA_SECOND = 2
};

/* The page of a file's plan; byte 5 of the file says whether it has three levels. */
struct Outcome zorilla_page(const uint8_t *file, size_t bytes, uint8_t *memory, size_t room);

/* The file of a plan with n factors and no words. */
struct Outcome zorilla_start(uint8_t levels, const uint8_t *file, size_t bytes, uint8_t n,
                             uint8_t *memory, size_t room);

/* The file of the plan with one word more. */
struct Outcome zorilla_admit(uint8_t levels, const uint8_t *file, size_t bytes, uint8_t side,
                             uint64_t word, uint8_t *memory, size_t room);

/* The file of the plan without the word at a place, from 1. */
struct Outcome zorilla_strike(uint8_t levels, const uint8_t *file, size_t bytes, uint8_t side,
                              size_t place, uint8_t *memory, size_t room);

/* The file of the plan as it was read. */
struct Outcome zorilla_write(uint8_t levels, const uint8_t *file, size_t bytes,
                             uint8_t *memory, size_t room);

/* The number of factors. */
struct Outcome zorilla_factors(uint8_t levels, const uint8_t *file, size_t bytes);

/* How many words the list of a side has. */
struct Outcome zorilla_count(uint8_t levels, const uint8_t *file, size_t bytes, uint8_t side);

/* The word at a place of a side's list, from 1. */
struct Outcome zorilla_word(uint8_t levels, const uint8_t *file, size_t bytes, uint8_t side,
                            size_t place);

/* The best generators of a side; costs points to 32 costs, factor 1 first. */
struct Outcome zorilla_choose(uint8_t levels, const uint8_t *file, size_t bytes, uint8_t side,
                              uint8_t preference, const uint16_t *costs,
                              uint64_t *memory, size_t room);

/* The best generators of a side by a scored preference, and their scores. */
struct Outcome zorilla_choose_scored(uint8_t levels, const uint8_t *file, size_t bytes, uint8_t side,
                                     uint8_t preference, const uint16_t *costs,
                                     uint64_t *words, size_t words_room,
                                     uint32_t *scores, size_t scores_room);

/* Which of two codes is better, for n factors and a base list of words. */
struct Outcome zorilla_verdict(uint8_t levels, uint8_t preference, const uint16_t *costs, uint8_t n,
                               const uint64_t *base, size_t words, uint64_t a, uint64_t b);

/* The wordlength pattern: of the words that the defining words generate, without code 0, how many have each length from 1 to n; divided
   by the levels less 1. */
struct Outcome zorilla_pattern(uint8_t levels, const uint8_t *file, size_t bytes,
                               uint32_t *memory, size_t room);

/* The resolution; 0 where there is none. */
struct Outcome zorilla_resolution(uint8_t levels, const uint8_t *file, size_t bytes);

/* The count of the resolution; 0 where there is none. */
struct Outcome zorilla_resolution_count(uint8_t levels, const uint8_t *file, size_t bytes);

/* Alias member m of a word, from 0, in ascending code. */
struct Outcome zorilla_alias_member(uint8_t levels, const uint8_t *file, size_t bytes,
                                    uint64_t word, uint64_t m);

/* The alias set of a word, in ascending code. */
struct Outcome zorilla_aliases(uint8_t levels, const uint8_t *file, size_t bytes, uint64_t word,
                               uint64_t *memory, size_t room);

/* With two levels, one byte for each pair of factors: 1 where it is clear. */
struct Outcome zorilla_clear(const uint8_t *file, size_t bytes, uint8_t *memory, size_t room);

/* With two levels, run m, from 0, in ascending code. */
struct Outcome zorilla_run(const uint8_t *file, size_t bytes, uint64_t m);

/* With two levels, so many runs from a place on, from 0. */
struct Outcome zorilla_runs(const uint8_t *file, size_t bytes, uint64_t first, size_t count,
                            uint64_t *memory, size_t room);

/* With two levels, the block number of a run under a list of words. */
struct Outcome zorilla_block_number(const uint8_t *file, size_t bytes, uint64_t run,
                                    const uint64_t *words, size_t count);

#ifdef __cplusplus
}
#endif

#endif
