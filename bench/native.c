/* A resolver in C, run natively: native RECORDHEX prints first, second or none. Compiled with -include RESOLVER.c. */
#include <stdio.h>
#include <string.h>

int main(int argc, char **argv)
{
    union {
        struct record record;
        unsigned char bytes[sizeof(struct record)];
    } clash;
    unsigned byte;

    if (argc != 2 || strlen(argv[1]) != 2 * sizeof clash.bytes)
        return 2;
    for (size_t i = 0; i < sizeof clash.bytes; i++) {
        if (sscanf(argv[1] + 2 * i, "%2x", &byte) != 1)
            return 2;
        clash.bytes[i] = byte;
    }
    switch (resolve(&clash.record)) {
    case FIRST: puts("first"); break;
    case SECOND: puts("second"); break;
    default: puts("none");
    }
    return 0;
}
