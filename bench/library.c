/*
 * Times libheal and DPDK's rte_bpf in one program: library RECORDHEX RUNS HEX.. loads each program by both, and runs it RUNS
 * times by both on the record, whose word changes from run to run. Prints a line for each program: the mean times in
 * nanoseconds of heal_program_load, rte_bpf_load, heal_program_judge and rte_bpf_exec. Ends with status 1 if the answers
 * differ.
 */
#include "heal.h"

#include <rte_bpf.h>
#include <stdio.h>
#include <stdlib.h>
#include <string.h>
#include <time.h>

enum { LOADS = 200, WORD_AT = 40, MOST_BYTES = 8192 };

struct times {
    double load;
    double run;
    uint64_t sum;
};

static double now_ns(void)
{
    struct timespec t;

    clock_gettime(CLOCK_MONOTONIC, &t);
    return t.tv_sec * 1e9 + t.tv_nsec;
}

static size_t read_hex(const char *text, uint8_t *bytes, size_t most)
{
    size_t count = 0;
    unsigned byte;

    while (count < most && sscanf(text + 2 * count, "%2x", &byte) == 1)
        bytes[count++] = (uint8_t)byte;
    return count;
}

static void must(bool succeeded, const char *call)
{
    if (succeeded)
        return;
    fprintf(stderr, "%s failed\n", call);
    exit(1);
}

static void time_heal(const uint8_t *code, size_t len, uint8_t *record, long runs, struct times *times)
{
    heal_program program = {0};
    heal_ended ended = {0, 0};
    uint32_t slot;
    double start = now_ns();

    for (int i = 0; i < LOADS; i++)
        must(heal_program_load(code, len, &program, &slot) == 0, "heal_program_load");
    times->load = (now_ns() - start) / LOADS;
    times->sum = 0;
    start = now_ns();
    for (uint64_t word = 0; word < (uint64_t)runs; word++) {
        memcpy(record + WORD_AT, &word, sizeof word);
        heal_program_judge(&program, record, &ended);
        times->sum += ended.r0;
    }
    times->run = (now_ns() - start) / (double)runs;
    heal_program_free(&program);
}

static void time_peer(const uint8_t *code, size_t len, uint8_t *record, long runs, struct times *times)
{
    struct rte_bpf_prm prm;
    struct rte_bpf *program = NULL;
    double start;

    memset(&prm, 0, sizeof prm);
    prm.ins = (const void *)code;
    prm.nb_ins = (uint32_t)(len / 8);
    prm.prog_arg.type = RTE_BPF_ARG_PTR;
    prm.prog_arg.size = HEAL_RECORD_LEN;
    start = now_ns();
    for (int i = 0; i < LOADS; i++) {
        if (program != NULL)
            rte_bpf_destroy(program);
        program = rte_bpf_load(&prm);
        must(program != NULL, "rte_bpf_load");
    }
    times->load = (now_ns() - start) / LOADS;
    times->sum = 0;
    start = now_ns();
    for (uint64_t word = 0; word < (uint64_t)runs; word++) {
        memcpy(record + WORD_AT, &word, sizeof word);
        times->sum += rte_bpf_exec(program, record);
    }
    times->run = (now_ns() - start) / (double)runs;
    rte_bpf_destroy(program);
}

static void measure(const char *hex, uint8_t *record, long runs)
{
    static uint8_t code[MOST_BYTES];
    size_t len = read_hex(hex, code, sizeof code);
    struct times heal;
    struct times peer;

    time_heal(code, len, record, runs, &heal);
    time_peer(code, len, record, runs, &peer);
    must(heal.sum == peer.sum, "the comparison of answers");
    printf("%.0f %.0f %.1f %.1f\n", heal.load, peer.load, heal.run, peer.run);
}

int main(int argc, char **argv)
{
    uint8_t record[HEAL_RECORD_LEN];
    long runs;

    if (argc < 4 || read_hex(argv[1], record, sizeof record) != sizeof record || (runs = atol(argv[2])) < 1) {
        fprintf(stderr, "usage: library RECORDHEX RUNS HEX..\n");
        return 2;
    }
    for (int i = 3; i < argc; i++)
        measure(argv[i], record, runs);
    return 0;
}
