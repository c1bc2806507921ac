/* What DPDK's rte_bpf takes for a program: peer HEX RECORDHEX RUNS prints the mean nanoseconds of a load (its validator)
 * and of a run (its interpreter) on the record, whose word changes from run to run, and the sum of the answers. */
#include <rte_bpf.h>
#include <rte_errno.h>
#include <stdint.h>
#include <stdio.h>
#include <stdlib.h>
#include <string.h>
#include <time.h>

enum { LOADS = 2000, RECORD_LEN = 160, WORD_AT = 40, MOST_BYTES = 8192 };

static double now_ns(void)
{
    struct timespec t;

    clock_gettime(CLOCK_MONOTONIC, &t);
    return t.tv_sec * 1e9 + t.tv_nsec;
}

static size_t read_hex(const char *text, unsigned char *bytes, size_t most)
{
    size_t count = 0;
    unsigned byte;

    while (count < most && sscanf(text + 2 * count, "%2x", &byte) == 1)
        bytes[count++] = byte;
    return count;
}

int main(int argc, char **argv)
{
    static unsigned char code[MOST_BYTES];
    unsigned char record[RECORD_LEN];
    struct rte_bpf_prm prm;
    struct rte_bpf *bpf;
    uint64_t sum = 0;
    double start, run;
    long runs;

    if (argc != 4 || (runs = atol(argv[3])) < 1 || read_hex(argv[2], record, RECORD_LEN) != RECORD_LEN) {
        fprintf(stderr, "usage: peer HEX RECORDHEX RUNS\n");
        return 2;
    }
    memset(&prm, 0, sizeof prm);
    prm.ins = (void *)code;
    prm.nb_ins = read_hex(argv[1], code, MOST_BYTES) / 8;
    prm.prog_arg.type = RTE_BPF_ARG_PTR;
    prm.prog_arg.size = RECORD_LEN;
    bpf = rte_bpf_load(&prm);
    if (!bpf) {
        printf("refused %d\n", rte_errno);
        return 1;
    }
    start = now_ns();
    for (uint64_t word = 0; word < (uint64_t)runs; word++) {
        memcpy(record + WORD_AT, &word, sizeof word);
        sum += rte_bpf_exec(bpf, record);
    }
    run = (now_ns() - start) / runs;
    start = now_ns();
    for (int i = 0; i < LOADS; i++) {
        struct rte_bpf *again = rte_bpf_load(&prm);

        rte_bpf_destroy(again);
    }
    printf("load %.0f ns\nrun %.1f ns\nsum %llu\n", (now_ns() - start) / LOADS, run, (unsigned long long)sum);
    return 0;
}
