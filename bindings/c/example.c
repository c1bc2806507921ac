/*
 * Two processes, each with one half of a cluster, heal a split: they exchange two messages each over pipes, and nothing else.
 * Prints the clashes and the one table that both halves have afterwards. The winner of one clash has died, so nobody keeps its
 * name: the half of the survivor registers it again. Both owners of another name have died.
 */
#include "heal.h"

#include <stdbool.h>
#include <stdio.h>
#include <stdlib.h>
#include <string.h>
#include <sys/wait.h>
#include <unistd.h>

/* The registration with the later stamp keeps the name, or the first if the stamps are equal. */
static const uint8_t LATER_STAMP[] = {
    0x79, 0x12, 0x38, 0, 0, 0, 0, 0, /* ldxdw r2, [r1+56], the first stamp */
    0x79, 0x13, 0x60, 0, 0, 0, 0, 0, /* ldxdw r3, [r1+96], the second stamp */
    0xb7, 0x00, 0x00, 0, 1, 0, 0, 0, /* mov64 r0, 1 */
    0x3d, 0x32, 0x01, 0, 0, 0, 0, 0, /* jge r2, r3, +1 */
    0xb7, 0x00, 0x00, 0, 2, 0, 0, 0, /* mov64 r0, 2 */
    0x95, 0x00, 0x00, 0, 0, 0, 0, 0, /* exit */
};

/* The pipes to the other half. */
struct link {
    int from;
    int to;
};

/* Ends the process if a call is refused. */
static void must(const char *call, uint32_t refusal)
{
    uint8_t words[128];
    size_t len;

    if (refusal == 0)
        return;
    len = heal_refusal_words(refusal, words, sizeof words);
    fprintf(stderr, "%s: refused %u: %.*s\n", call, refusal, len > sizeof words ? 0 : (int)len, (const char *)words);
    exit(1);
}

/* Ends the process if a system call fails. */
static void check(const char *call, bool succeeded)
{
    if (succeeded)
        return;
    perror(call);
    exit(1);
}

static void write_all(int to, const void *data, size_t len)
{
    const uint8_t *at = data;

    while (len > 0) {
        ssize_t written = write(to, at, len);
        check("write", written > 0);
        at += written;
        len -= (size_t)written;
    }
}

static void read_all(int from, void *data, size_t len)
{
    uint8_t *at = data;

    while (len > 0) {
        ssize_t got = read(from, at, len);
        check("read", got >= 0);
        if (got == 0) {
            fprintf(stderr, "the other half has ended\n");
            exit(1);
        }
        at += got;
        len -= (size_t)got;
    }
}

/* Sends a message and frees it: its length as a number of this machine, then its bytes. */
static void send_message(int to, heal_bytes *message)
{
    heal_span sent = HEAL_NO_BYTES;

    must("heal_bytes_lend", heal_bytes_lend(message, &sent));
    write_all(to, &sent.len, sizeof sent.len);
    write_all(to, sent.data, sent.len);
    heal_bytes_free(message);
}

/* Receives a message, which the caller frees. */
static uint8_t *receive(int from, size_t *len)
{
    uint8_t *message;

    read_all(from, len, sizeof *len);
    message = malloc(*len);
    check("malloc", message != NULL);
    read_all(from, message, *len);
    return message;
}

/* Sends a message and receives one, which the caller frees. B receives first: if both wrote first, two messages that don't fit into the
   pipes would wait for each other. */
static uint8_t *swap(uint32_t half, struct link link, heal_bytes *message, size_t *len)
{
    uint8_t *theirs = half == HEAL_B ? receive(link.from, len) : NULL;

    send_message(link.to, message);
    return half == HEAL_B ? theirs : receive(link.from, len);
}

static void add_name(heal_side *side, const char *name, heal_owner owner, uint64_t stamp, const uint8_t *program)
{
    heal_registration registration = {.owner = owner, .stamp = stamp, .resolver = HEAL_EXIT};

    if (program != NULL) {
        registration.resolver = HEAL_PROGRAM;
        memcpy(registration.program, program, HEAL_ID_LEN);
    }
    must("heal_side_register", heal_side_register(side, (const uint8_t *)name, strlen(name), &registration));
}

/* Registers names as if the link were down. */
static void live_apart(heal_side *side, uint32_t node)
{
    uint8_t later[HEAL_ID_LEN];
    uint32_t slot;

    must("heal_side_upload", heal_side_upload(side, LATER_STAMP, sizeof LATER_STAMP, later, &slot));
    add_name(side, "cache", (heal_owner){node, 1}, 100 * node, NULL);
    add_name(side, "db", (heal_owner){node, 2}, 100 * node, later);
    add_name(side, "mail", (heal_owner){node, 3}, 100 * node, NULL);
    add_name(side, "news", (heal_owner){node, 5}, 100 * node, NULL);
    if (node == 2)
        add_name(side, "web", (heal_owner){node, 4}, 100 * node, NULL);
}

/* Carries out exchange 1 with the half at the other end of the pipes. The owner of B's `mail` has died meanwhile, and both of `news`. */
static void heal(heal_side *side, uint32_t half, struct link link, heal_outcome *outcome)
{
    heal_bytes message = {0};
    uint8_t *theirs;
    size_t len = 0;

    must("heal_side_begin", heal_side_begin(side, 1, 7, half == HEAL_B ? 60 : 3600, &message));
    theirs = swap(half, link, &message, &len);
    must("heal_side_hear", heal_side_hear(side, theirs, len));
    free(theirs);
    must("heal_side_settle", heal_side_settle(side));
    if (half == HEAL_B)
        must("heal_side_withdraw", heal_side_withdraw(side, (const uint8_t *)"mail", 4));
    must("heal_side_withdraw", heal_side_withdraw(side, (const uint8_t *)"news", 4));
    must("heal_side_close_list", heal_side_close_list(side, &message));
    theirs = swap(half, link, &message, &len);
    must("heal_side_hear_list", heal_side_hear_list(side, theirs, len));
    free(theirs);
    must("heal_side_finish", heal_side_finish(side, outcome));
}

static void print_notices(const heal_outcome *outcome, size_t i, uint32_t count)
{
    static const char *const kinds[] = {"exit", "conflict", "conflict with another"};
    heal_notice notice;

    for (uint32_t n = 0; n < count; n++) {
        must("heal_outcome_notice", heal_outcome_notice(outcome, i, n, &notice));
        printf("  notice to %u.%u: %s\n", notice.to.node, notice.to.serial, kinds[notice.kind]);
    }
}

static void print_clashes(const heal_outcome *outcome)
{
    static const char *const owners[] = {"neither", "the first", "the second"};
    heal_clash clash;
    size_t count = 0;

    must("heal_outcome_clashes", heal_outcome_clashes(outcome, &count));
    for (size_t i = 0; i < count; i++) {
        must("heal_outcome_clash", heal_outcome_clash(outcome, i, &clash));
        printf("%.*s: %s keeps it\n", (int)clash.name.len, (const char *)clash.name.bytes, owners[clash.keeps]);
        print_notices(outcome, i, clash.notices);
    }
}

/* Whether a half withdrew a name in the exchange. */
static bool has_withdrawn(const heal_outcome *outcome, uint32_t half, const heal_name *name)
{
    heal_name found;

    for (size_t i = 0; heal_outcome_withdrawn(outcome, half, i, &found) == 0; i++)
        if (found.len == name->len && memcmp(found.bytes, name->bytes, found.len) == 0)
            return true;
    return false;
}

/* Registers again what this half had in clashes whose winner was withdrawn by the other half, and didn't withdraw itself. */
static void register_survivors(heal_side *side, uint32_t half, const heal_outcome *outcome)
{
    heal_clash clash;
    size_t count = 0;

    must("heal_outcome_clashes", heal_outcome_clashes(outcome, &count));
    for (size_t i = 0; i < count; i++) {
        must("heal_outcome_clash", heal_outcome_clash(outcome, i, &clash));
        if (clash.keeps == clash.verdict)
            continue;
        bool is_first = clash.verdict == HEAL_SECOND;
        if ((clash.first_half == half) != is_first || has_withdrawn(outcome, half, &clash.name))
            continue;
        must("heal_side_register", heal_side_register(side, clash.name.bytes, clash.name.len, is_first ? &clash.first : &clash.second));
    }
}

static void print_names(const heal_side *side, const char *half)
{
    heal_row row;
    size_t count = 0;
    uint32_t number;

    must("heal_side_count", heal_side_count(side, &count));
    printf("half %s has %zu names:\n", half, count);
    for (number = heal_side_row(side, 0, &row); number == 0;
         number = heal_side_row_after(side, row.name.bytes, row.name.len, &row))
        printf("  %.*s %u.%u\n", (int)row.name.len, (const char *)row.name.bytes, row.registration.owner.node,
               row.registration.owner.serial);
    if (number != HEAL_NO_ROW)
        must("heal_side_row_after", number);
}

/* Half A, in the child: prints the clashes and its names. */
static void run_a(struct link link)
{
    heal_side side = {0};
    heal_outcome outcome = {0};

    must("heal_side_new", heal_side_new(HEAL_A, &side));
    live_apart(&side, 1);
    heal(&side, HEAL_A, link, &outcome);
    print_clashes(&outcome);
    register_survivors(&side, HEAL_A, &outcome);
    print_names(&side, "a");
    heal_outcome_free(&outcome);
    heal_side_free(&side);
}

/* Half B, in the parent: prints its names after the child has printed. Returns the child's status. */
static int run_b(struct link link, pid_t child)
{
    heal_side side = {0};
    heal_outcome outcome = {0};
    int status = 0;

    must("heal_side_new", heal_side_new(HEAL_B, &side));
    live_apart(&side, 2);
    heal(&side, HEAL_B, link, &outcome);
    register_survivors(&side, HEAL_B, &outcome);
    check("waitpid", waitpid(child, &status, 0) == child);
    print_names(&side, "b");
    heal_outcome_free(&outcome);
    heal_side_free(&side);
    return WIFEXITED(status) ? WEXITSTATUS(status) : 1;
}

int main(void)
{
    int to_a[2];
    int to_b[2];
    pid_t child;

    check("pipe", pipe(to_a) == 0 && pipe(to_b) == 0);
    child = fork();
    check("fork", child >= 0);
    if (child == 0) {
        close(to_a[1]);
        close(to_b[0]);
        run_a((struct link){.from = to_a[0], .to = to_b[1]});
        return 0;
    }
    close(to_a[0]);
    close(to_b[1]);
    return run_b((struct link){.from = to_b[0], .to = to_a[1]}, child);
}
