// threads: how far do threads scale on this machine? `threads MICROSECONDS` splits work that takes one thread that long among
// 1, 2, 4 and 16 threads, one of them the calling one, and prints a line for each kind of work and count of threads: the least
// of 25 times in microseconds, from before the first start until all have ended. The kinds:
//
//   chain     multiplications in registers, each of which waits for the one before; the threads share nothing
//   wide      additions and shifts of eight words in registers, several of which run at once; the threads share nothing
//   one       a model of a board: draws 4,096 numbers one by one, multiplies for each, and posts it, as a cell that points to
//             a new allocation and as a word
//   row       the same, but draws 16 numbers in one step
//   list      the same as `row`, and first reads a record of 256 bytes, a clash's size, which the calling thread has written once
//   spaced    the same as `row`, with cells and words 64 bytes apart
#include <pthread.h>
#include <stdatomic.h>
#include <stdint.h>
#include <stdio.h>
#include <stdlib.h>
#include <time.h>

enum { ROUNDS = 25, MOST = 16, CLASHES = 4096, LINE = 8, RECORD = 32 };

struct kind {
    const char *name;
    uint64_t row;     // numbers that are drawn in one step; 0: no board
    uint64_t spacing; // of cells and words, in words
    int reads;        // whether it reads a record for each number
    int wide;         // whether the operations are independent
};

struct job {
    const struct kind *kind;
    uint64_t steps; // multiplications of this thread, or for each clash
    uint64_t result;
    char apart[104]; // so that no two jobs share a line of memory
};

static _Alignas(64) atomic_uint_fast64_t drawn;
static _Alignas(64) _Atomic(uint64_t *) cells[CLASHES * LINE];
static _Alignas(64) atomic_uint_fast64_t answers[CLASHES * LINE];
static _Alignas(64) uint64_t records[CLASHES][RECORD];

static double microseconds(void) {
    struct timespec now;
    clock_gettime(CLOCK_MONOTONIC, &now);
    return (double)now.tv_sec * 1e6 + (double)now.tv_nsec / 1e3;
}

static uint64_t multiply(uint64_t x, uint64_t steps) {
    for (uint64_t i = 0; i < steps; i++) {
        x = x * 0x9E3779B97F4A7C15u + i;
    }
    return x;
}

static uint64_t mix(uint64_t x, uint64_t steps) {
    uint64_t a = x, b = 1, c = 2, d = 3, e = 4, f = 5, g = 6, h = 7;
    for (uint64_t i = 0; i < steps; i++) {
        a += i ^ b, c += i ^ d, e += i ^ f, g += i ^ h;
        b ^= a >> 3, d ^= c >> 5, f ^= e >> 7, h ^= g >> 9;
    }
    return a + b + c + d + e + f + g + h;
}

static void post(uint64_t place, uint64_t word) {
    uint64_t *kept = malloc(sizeof *kept), *none = NULL;
    if (kept == NULL) {
        abort();
    }
    *kept = word;
    if (!atomic_compare_exchange_strong(&cells[place], &none, kept)) {
        abort(); // each number is drawn once
    }
    atomic_exchange(&answers[place], word);
}

static void *work(void *given) {
    struct job *job = given;
    const struct kind *kind = job->kind;
    if (kind->row == 0) {
        job->result = kind->wide ? mix(1, job->steps) : multiply(1, job->steps);
        return NULL;
    }
    for (;;) {
        uint64_t first = atomic_fetch_add(&drawn, kind->row);
        for (uint64_t k = first; k < first + kind->row; k++) {
            if (k >= CLASHES) {
                return NULL;
            }
            uint64_t word = k;
            for (int i = 0; kind->reads && i < RECORD; i++) {
                word += records[k][i];
            }
            job->result = multiply(word, job->steps);
            post(k * kind->spacing, job->result);
        }
    }
}

static void clear_board(void) {
    for (uint64_t i = 0; i < CLASHES * LINE; i++) {
        free(atomic_exchange(&cells[i], NULL));
    }
    atomic_store(&drawn, 0);
}

static double time_of(const struct kind *kind, int threads, uint64_t steps) {
    static struct job jobs[MOST];
    pthread_t started[MOST];
    clear_board();
    double start = microseconds();
    for (int i = 0; i < threads; i++) {
        jobs[i] = (struct job){.kind = kind, .steps = kind->row ? steps / CLASHES : steps / (uint64_t)threads};
        if (i > 0 && pthread_create(&started[i], NULL, work, &jobs[i]) != 0) {
            perror("pthread_create");
            exit(1);
        }
    }
    work(&jobs[0]);
    for (int i = 1; i < threads; i++) {
        pthread_join(started[i], NULL);
    }
    return microseconds() - start;
}

static double least_time(const struct kind *kind, int threads, uint64_t steps) {
    double least = time_of(kind, threads, steps);
    for (int i = 1; i < ROUNDS; i++) {
        double time = time_of(kind, threads, steps);
        least = time < least ? time : least;
    }
    return least;
}

int main(int count, char **words) {
    static const struct kind kinds[] = {
        {.name = "chain"},
        {.name = "wide", .wide = 1},
        {.name = "one", .row = 1, .spacing = 1},
        {.name = "row", .row = 16, .spacing = 1},
        {.name = "list", .row = 16, .spacing = 1, .reads = 1},
        {.name = "spaced", .row = 16, .spacing = LINE},
    };
    static const int threads[] = {1, 2, 4, MOST};
    double wanted = count == 2 ? atof(words[1]) : 0;
    if (!(wanted > 0)) {
        fprintf(stderr, "usage: threads MICROSECONDS\n");
        return 2;
    }
    for (uint64_t i = 0; i < CLASHES * RECORD; i++) {
        records[i / RECORD][i % RECORD] = i;
    }
    const uint64_t sample = 1000000;
    uint64_t narrow = (uint64_t)(wanted / least_time(&kinds[0], 1, sample) * (double)sample);
    uint64_t wide = (uint64_t)(wanted / least_time(&kinds[1], 1, sample) * (double)sample);
    for (unsigned kind = 0; kind < sizeof kinds / sizeof *kinds; kind++) {
        uint64_t steps = kinds[kind].wide ? wide : narrow;
        for (unsigned i = 0; i < sizeof threads / sizeof *threads; i++) {
            printf("%s %d %.0f\n", kinds[kind].name, threads[i], least_time(&kinds[kind], threads[i], steps));
        }
    }
    return 0;
}
