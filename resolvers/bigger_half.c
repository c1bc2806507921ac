/* The half whose table has more names keeps the name; of equal tables the half that has been up for longer, else the first. */
#include "record.h"

uint64_t resolve(const struct record *r)
{
    if (r->of_first.size != r->of_second.size)
        return r->of_first.size > r->of_second.size ? FIRST : SECOND;
    return r->of_first.uptime >= r->of_second.uptime ? FIRST : SECOND;
}
