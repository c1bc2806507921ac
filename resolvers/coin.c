/* Tosses a coin: the word's bits are mixed, and the lowest of them decides. */
#include "record.h"

uint64_t resolve(const struct record *r)
{
    uint64_t w = r->word;

    w ^= w >> 33;
    w *= 0xff51afd7ed558ccdull;
    w ^= w >> 33;
    w *= 0xc4ceb9fe1a85ec53ull;
    w ^= w >> 33;
    return (w & 1) ? FIRST : SECOND;
}
