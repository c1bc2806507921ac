/* A third of all names is unregistered, a third goes to the first, a third to the second: by a hash of the name. */
#include "record.h"

uint64_t resolve(const struct record *r)
{
    uint32_t hash = 2166136261u;

#pragma unroll
    for (int i = 0; i < 32; i++) {
        hash ^= r->name[i];
        hash *= 16777619u;
    }
    return hash % 3 == 0 ? NONE : (hash % 3 == 1 ? FIRST : SECOND);
}
