/* The record of a clash, 160 bytes, as C sees it. All numbers have their least byte first. */
#include <stdint.h>

struct registration {
    uint32_t node;       /* the owner's node */
    uint32_t serial;     /* the owner's number on that node */
    uint64_t stamp;
    uint64_t weight;
    uint8_t extra[16];
};

/* Of the half that holds a registration. */
struct facts {
    uint64_t size;       /* how many names its table has */
    uint64_t uptime;     /* how long it has been up, as a number that its owner sets */
};

struct record {
    uint32_t name_length; /* 1 to 32 */
    uint32_t zero;
    uint8_t name[32];     /* padded with zeros */
    uint64_t word;        /* one of four numbers that both sides know; use it as a random number */
    struct registration first;
    struct registration second;
    struct facts of_first;
    struct facts of_second;
};

/* What a resolver answers. Any other number counts as NONE. */
enum answer { NONE = 0, FIRST = 1, SECOND = 2 };
