/* Keeps a table on the stack, divides, takes remainders and shifts by amounts that aren't known beforehand. */
#include "record.h"

uint64_t resolve(const struct record *r)
{
    volatile uint64_t t[8];

    t[0] = r->first.stamp;
    t[1] = r->second.stamp;
    t[2] = r->first.weight;
    t[3] = r->second.weight;
    t[4] = t[0] / (t[1] | 1);
    t[5] = t[2] % (t[3] | 1);
    t[6] = t[4] << (t[5] & 15);
    t[7] = t[6] ^ r->word;
    return t[7] > t[0] ? FIRST : t[7] < t[3] ? SECOND : NONE;
}
