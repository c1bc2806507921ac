/* The registration with the later stamp keeps the name; of equal ones the first. */
#include "record.h"

uint64_t resolve(const struct record *r)
{
    return r->first.stamp >= r->second.stamp ? FIRST : SECOND;
}
