/*
 * A node of a half: node FOLDER NUMBER. It holds a replica, keeps a log in the folder, and obeys requests from standard input:
 * a letter, a length of eight bytes in this machine's order, and as many bytes. It answers each with a refusal of four bytes, a
 * length and bytes.
 *
 *   R NAME       registers the name; answers with the entry, which the log has then
 *   U NAME       unregisters it, likewise
 *   A ENTRY      applies an entry of the primary, and writes it to the log
 *   F SNAPSHOT   follows a snapshot, and starts a new log with it
 *   L            leads: starts a view and a new log, and answers with the snapshot
 *   W NAME       looks the name up
 *
 * It may be killed at any moment: what it answered with 0 is in its log. Only one process at a time may use the folder. A request that
 * the end of the input cuts isn't carried out.
 */
#include "heal.h"

#include <errno.h>
#include <fcntl.h>
#include <stdbool.h>
#include <stdio.h>
#include <stdlib.h>
#include <string.h>
#include <sys/stat.h>
#include <unistd.h>

/* The log that is open for appending. */
static int log_file = -1;

static void check(const char *what, bool succeeded)
{
    if (succeeded)
        return;
    fprintf(stderr, "%s: %s\n", what, strerror(errno));
    exit(1);
}

static void must(const char *call, uint32_t refusal)
{
    if (refusal == 0)
        return;
    fprintf(stderr, "%s: refused %u\n", call, refusal);
    exit(1);
}

static void write_all(int to, const void *data, size_t len)
{
    const uint8_t *at = data;

    while (len > 0) {
        ssize_t written = write(to, at, len);
        check("write", written > 0);
        at += written;
        len -= (size_t)written;
    }
}

/* Reads as many bytes; false at the end of the input. */
static bool read_all(int from, void *data, size_t len)
{
    uint8_t *at = data;

    while (len > 0) {
        ssize_t got = read(from, at, len);
        if (got <= 0)
            return false;
        at += got;
        len -= (size_t)got;
    }
    return true;
}

/* Opens a file to read it, and returns -1 if it doesn't exist. A file that exists and can't be read is an error. */
static int open_old(const char *name)
{
    int file = open(name, O_RDONLY);

    check(name, file >= 0 || errno == ENOENT);
    return file;
}

static void sync_folder(void)
{
    int folder = open(".", O_RDONLY);

    check("open", folder >= 0 && fsync(folder) == 0);
    close(folder);
}

/* Replaces a file by these bytes: after a crash it has its old bytes or these. */
static int replace_file(const char *name, const void *bytes, size_t len)
{
    int file = open("new", O_RDWR | O_CREAT | O_TRUNC, 0600);

    check("open", file >= 0);
    write_all(file, bytes, len);
    check("fsync", fsync(file) == 0 && rename("new", name) == 0);
    sync_folder();
    return file;
}

/* Appends an entry to the log. It is written in two parts, so that a kill may cut it. */
static void append(const uint8_t *entry, size_t len)
{
    write_all(log_file, entry, len / 2);
    write_all(log_file, entry + len / 2, len - len / 2);
    check("fdatasync", fdatasync(log_file) == 0);
}

static uint8_t *copy_of(const heal_bytes *message, size_t *len)
{
    uint8_t *copy;

    must("heal_bytes_len", heal_bytes_len(message, len));
    copy = malloc(*len);
    check("malloc", copy != NULL);
    must("heal_bytes_copy", heal_bytes_copy(message, copy, *len));
    return copy;
}

/* Starts a log with a snapshot of the replica. */
static void start_log(const heal_replica *replica)
{
    heal_bytes snapshot = {0};
    size_t len;
    uint8_t *bytes;

    must("heal_replica_snapshot", heal_replica_snapshot(replica, &snapshot));
    bytes = copy_of(&snapshot, &len);
    if (log_file >= 0)
        close(log_file);
    log_file = replace_file("log", bytes, len);
    free(bytes);
    heal_bytes_free(&snapshot);
}

/* Stores the next incarnation and returns it. */
static uint64_t next_incarnation(void)
{
    uint64_t incarnation = 0;
    int file = open_old("incarnation");

    if (file >= 0) {
        check("read", read(file, &incarnation, sizeof incarnation) == sizeof incarnation);
        close(file);
    }
    incarnation++;
    close(replace_file("incarnation", &incarnation, sizeof incarnation));
    return incarnation;
}

/* Reads the log: the snapshot, then the entries up to the last whole one. */
static void read_log(heal_replica *replica, const uint8_t *log, size_t len)
{
    heal_front front;

    for (;; log += front.size, len -= (size_t)front.size) {
        must("heal_log_front", heal_log_front(log, len, &front));
        switch (front.kind) {
        case HEAL_SNAPSHOT:
            must("heal_replica_follow", heal_replica_follow(replica, log, (size_t)front.size));
            break;
        case HEAL_ENTRY:
            must("heal_replica_apply", heal_replica_apply(replica, log, (size_t)front.size));
            break;
        case HEAL_LOG_CUT:
            fprintf(stderr, "the log ends within an entry\n");
            return;
        default:
            return;
        }
    }
}

/* Starts a new life with what the log has. */
static void restart(heal_replica *replica, uint32_t node)
{
    heal_life life = {.incarnation = next_incarnation(), .node = node};
    struct stat found;
    int file = open_old("log");

    must("heal_replica_start", heal_replica_start(&life, replica));
    if (file >= 0) {
        check("fstat", fstat(file, &found) == 0);
        uint8_t *log = malloc((size_t)found.st_size + 1);
        check("read", log != NULL && read_all(file, log, (size_t)found.st_size));
        read_log(replica, log, (size_t)found.st_size);
        free(log);
        close(file);
    }
    must("heal_replica_lead", heal_replica_lead(replica));
    start_log(replica);
}

static void answer(uint32_t refusal, const uint8_t *bytes, size_t len)
{
    uint64_t size = len;

    write_all(STDOUT_FILENO, &refusal, sizeof refusal);
    write_all(STDOUT_FILENO, &size, sizeof size);
    write_all(STDOUT_FILENO, bytes, len);
}

/* Answers an edit, once its entry is in the log. */
static void answer_edit(uint32_t refusal, heal_bytes *entry)
{
    size_t len = 0;
    uint8_t *bytes = NULL;

    if (refusal == 0) {
        bytes = copy_of(entry, &len);
        append(bytes, len);
    }
    answer(refusal, bytes, len);
    free(bytes);
    heal_bytes_free(entry);
}

static void answer_lead(heal_replica *replica)
{
    heal_bytes snapshot = {0};
    size_t len;
    uint8_t *bytes;

    must("heal_replica_lead", heal_replica_lead(replica));
    start_log(replica);
    must("heal_replica_snapshot", heal_replica_snapshot(replica, &snapshot));
    bytes = copy_of(&snapshot, &len);
    answer(0, bytes, len);
    free(bytes);
    heal_bytes_free(&snapshot);
}

static void obey(heal_replica *replica, char request, const uint8_t *bytes, size_t len)
{
    heal_registration registration = {.owner = {1, 1}, .resolver = HEAL_EXIT};
    heal_bytes entry = {0};
    uint32_t refusal;

    switch (request) {
    case 'R':
        answer_edit(heal_replica_register(replica, bytes, len, &registration, &entry), &entry);
        return;
    case 'U':
        answer_edit(heal_replica_unregister(replica, bytes, len, &entry), &entry);
        return;
    case 'A':
        refusal = heal_replica_apply(replica, bytes, len);
        if (refusal == 0)
            append(bytes, len);
        answer(refusal, NULL, 0);
        return;
    case 'F':
        refusal = heal_replica_follow(replica, bytes, len);
        if (refusal == 0)
            start_log(replica);
        answer(refusal, NULL, 0);
        return;
    case 'L':
        answer_lead(replica);
        return;
    default:
        answer(heal_replica_whereis(replica, bytes, len, &registration), NULL, 0);
    }
}

/* Reads the number of a node: decimal digits, and at most 32 bits. */
static bool read_number(const char *text, uint32_t *number)
{
    char *end;
    unsigned long long found;

    errno = 0;
    found = strtoull(text, &end, 10);
    *number = (uint32_t)found;
    return text[0] >= '0' && text[0] <= '9' && *end == '\0' && errno == 0 && found <= UINT32_MAX;
}

int main(int argc, char **argv)
{
    heal_replica replica = {0};
    char request;
    uint32_t node;
    uint64_t len;

    if (argc != 3 || !read_number(argv[2], &node)) {
        fprintf(stderr, "usage: node FOLDER NUMBER\n");
        return 1;
    }
    check(argv[1], chdir(argv[1]) == 0);
    restart(&replica, node);
    while (read_all(STDIN_FILENO, &request, 1) && read_all(STDIN_FILENO, &len, sizeof len)) {
        uint8_t *bytes = malloc(len);
        check("malloc", bytes != NULL || len == 0);
        if (read_all(STDIN_FILENO, bytes, len))
            obey(&replica, request, bytes, len);
        free(bytes);
    }
    heal_replica_free(&replica);
    return 0;
}
