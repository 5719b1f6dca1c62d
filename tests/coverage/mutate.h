/* Changes of an input. */
#ifndef COVERAGE_MUTATE_H
#define COVERAGE_MUTATE_H

#include <stddef.h>
#include <stdint.h>

#define MOST_BYTES (1 << 16)            /* no input grows past this */

struct bytes {
    size_t length;
    uint8_t at[MOST_BYTES];
};

/* A number below the bound, 0 where that is 0. */
uint32_t draw(uint32_t bound);
void seed_draws(uint64_t seed);

/* Makes one to four changes; what is put in is often taken from the other input. A text is changed token by token too. */
void mutate(struct bytes *bytes, const struct bytes *other, int is_text);

#endif
