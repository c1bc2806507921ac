/*
 * heal: the name registry that two halves of a cluster use when they meet again after a network split.
 *
 * RESULTS   Every call that can fail returns 0, or the number of its refusal; heal_refusal_words gives the words. Several
 *           refusals may apply: 91 comes first, then 44 and 76 for arguments, then the least number of the call itself;
 *           heal_side_hear, heal_side_hear_list, heal_side_forget, heal_bpf_load and the calls of replicas state their own order.
 *           90, out of memory, may replace another refusal only in calls that read a message or a program, and in edits of a
 *           replica, there but for 44, 76, 92, 95 and 99.
 *           A refused call leaves every handle unchanged, also the one that it would fill, and writes no result; the
 *           exceptions are `slot` and `fault`.
 * HANDLES   A handle is one word. Start it with `{0}`, which is empty; pass it by its address; never copy it while both
 *           copies are used. A call that fills a handle frees what the handle held. The function ending in `_free` frees
 *           what it holds and leaves it empty; freeing an empty handle does nothing. Calls on an empty handle return 91.
 * EVENTS    A side counts events, at most 16 for each name that it may have: 65,536 by default. register, unregister, begin,
 *           hear, withdraw, close_list, hear_list, finish and abandon add one event each time they return 0, also for a repeated
 *           message; settle adds one for each clash that it judges; the other calls add none. So an exchange adds five events,
 *           and one for each clash, each name that the side withdraws, and each repeated message: at most 8,197 without repeated
 *           ones. These calls return 40 when the count is full. heal_side_renew starts a fresh count, but only while no exchange
 *           is open: call it before each heal_side_begin, and an exchange has room for 53,000 repeated messages. If the count is
 *           full while an exchange is open, heal_side_give_up closes the exchange and starts a fresh count. An event holds no
 *           memory.
 * THREADS   Calls that take a handle as `const` only read it, or count owners atomically (heal_replica_snapshot, _side and the like):
 *           any number of them may run on one handle at the same time. A call
 *           that takes it without `const` must be the only one that runs on it. Calls on different handles may run in parallel.
 *           No call starts a thread, waits, or does input or output.
 * COST      With n names in the table: register, unregister, whereis, withdraw, row_after and live_after take O(log n) time;
 *           begin, finish, forget and code O(n), and also close_list in the withdrawn names; hear O(n) and the names of the
 *           offer, and the time to verify its programs; hear_list O(log n) for each name of the list; settle runs the
 *           resolver of each clash once; row, live, program and withdrawn count to their index; heal_program_load and upload
 *           take at most quadratic time in the slots of the code, and judge one step for each instruction. live_after also passes
 *           the withdrawn names in between, and the first edit of a replica after heal_replica_change copies the table while the
 *           side isn't freed. A message that is
 *           refused by its head (heal_side_hear) takes constant time, and so do the other calls. begin and finish copy no
 *           table; a side holds about 250 bytes for each name, and 360 to 640 while an exchange is open: the more, the more clash.
 * CALLER    Passes valid pointers: each argument points to as many readable bytes (results: writable) as its comment states, and
 *           results don't overlap other arguments. A pointer with length 0 may be NULL. Every other pointer isn't NULL.
 *           A handle holds only what a call here has put there.
 * NAMES     1 to 32 bytes, each from 0x21 to 0x7e (44 otherwise). They aren't NUL-terminated.
 */
#ifndef HEAL_H
#define HEAL_H

#include <stddef.h>
#include <stdint.h>

#ifdef __cplusplus
extern "C" {
#endif

enum { HEAL_RECORD_LEN = 160, HEAL_ID_LEN = 32, HEAL_NAME_LEN = 32, HEAL_EXTRA_LEN = 16 };
enum { HEAL_MAX_NAMES = 4096, HEAL_MOST_NAMES = 1048576, HEAL_MAX_PROGRAMS = 256, HEAL_MAX_EVENTS = 65536 };

/* The version of this header: three numbers, eight bits each. heal_version returns that of the library. */
#define HEAL_VERSION 0x000100

/* The two halves. */
enum { HEAL_A = 0, HEAL_B = 1 };
/* Kinds of resolvers. */
enum { HEAL_EXIT = 0, HEAL_NOTIFY = 1, HEAL_NOTIFY_ALL = 2, HEAL_PROGRAM = 3 };
/* Verdicts, as programs return them in R0; every other value of R0 is HEAL_NEITHER. */
enum { HEAL_NEITHER = 0, HEAL_FIRST = 1, HEAL_SECOND = 2 };
/* Kinds of notices. */
enum { HEAL_NOTICE_EXIT = 0, HEAL_NOTICE_CONFLICT = 1, HEAL_NOTICE_CONFLICT_WITH = 2 };
/* Kinds of messages. */
enum { HEAL_OFFER = 1, HEAL_LIST = 2, HEAL_ENTRY = 3, HEAL_SNAPSHOT = 4 };
/* What a log may begin with in place of an entry or a snapshot: nothing, or a message whose end is missing. */
enum { HEAL_LOG_END = 0, HEAL_LOG_CUT = 1 };
/* What an open exchange lacks before heal_side_finish. */
enum {
    HEAL_LACKS_NOTHING = 0,
    HEAL_LACKS_OFFER = 1,    /* the other side's offer */
    HEAL_LACKS_RULING = 2,   /* the ruling of a clash: heal_side_settle */
    HEAL_LACKS_OWN_LIST = 3, /* heal_side_close_list */
    HEAL_LACKS_LIST = 4      /* the other side's list */
};
/* Places of faults. */
enum { HEAL_AT_NONE = 0, HEAL_AT_BYTE = 1, HEAL_AT_ITEM = 2 };
/* What calls that return a row return if no such row exists. */
enum { HEAL_NO_ROW = 92 };

/* What calls return: 0, or the number of a refusal. */
/* refusals.py writes these. */
enum {
    HEAL_OK = 0,
    HEAL_E_EMPTY = 1, /* empty: no byte, or a text without an instruction */
    HEAL_E_TOO_LONG = 2, /* more than 1,024 slots */
    HEAL_E_RAGGED = 3, /* an incomplete last slot */
    HEAL_E_UNKNOWN_OPCODE = 4, /* an unknown opcode or operation */
    HEAL_E_BAD_REGISTER = 5, /* a register above R10 */
    HEAL_E_FIELD_NOT_ZERO = 6, /* an unused field that isn't zero */
    HEAL_E_CUT_WIDE = 7, /* a wide load without its second slot */
    HEAL_E_BACKWARD = 10, /* a backward jump */
    HEAL_E_OUTSIDE = 11, /* a jump to the end or past it */
    HEAL_E_INTO_WIDE = 12, /* a jump into a wide load */
    HEAL_E_FALLS_OFF = 13, /* the last instruction neither exits nor jumps */
    HEAL_E_NO_EDGE = 14, /* an unreachable instruction */
    HEAL_E_UNREADABLE = 15, /* a read of a register that may be unset, or may be an address or a number */
    HEAL_E_WRITES_R10 = 16, /* a write to R10 */
    HEAL_E_POINTER_OPERATION = 17, /* an address in an operation that addresses don't have */
    HEAL_E_POINTER_RANGE = 18, /* an address moved too far, or by an unknown amount */
    HEAL_E_POINTER_COMPARED = 19, /* an address in a test */
    HEAL_E_POINTER_STORED = 20, /* a store of an address */
    HEAL_E_OUTSIDE_RECORD = 21, /* an access that may leave the record */
    HEAL_E_WRITES_RECORD = 22, /* a store into the record */
    HEAL_E_OUTSIDE_STACK = 23, /* an access that may leave the stack */
    HEAL_E_UNWRITTEN_STACK = 24, /* a load of stack bytes that may be unwritten */
    HEAL_E_SCALAR_ADDRESS = 25, /* a number used as an address */
    HEAL_E_POINTER_RESULT = 26, /* an address as the answer */
    HEAL_E_NAME_TAKEN = 30, /* the name is already registered */
    HEAL_E_NO_SUCH_NAME = 31, /* the name isn't registered */
    HEAL_E_FULL = 32, /* the table is full: 4,096 names, or the side's limit */
    HEAL_E_HEALING = 33, /* an exchange is open */
    HEAL_E_NOT_HEALING = 34, /* no exchange is open */
    HEAL_E_STALE_NUMBER = 35, /* the number isn't above every number begun so far */
    HEAL_E_SEED_DIFFERS = 36, /* the seeds differ */
    HEAL_E_TOO_MANY_NAMES = 37, /* the two tables have more names together than one may have: 4,096, or the side's limit */
    HEAL_E_MISSING = 39, /* the exchange isn't complete */
    HEAL_E_JOURNAL_FULL = 40, /* the journal is full: 65,536 events, or 16 for each name of the side's limit */
    HEAL_E_UNKNOWN_PROGRAM = 41, /* an unknown program, or a word that is neither a built-in resolver nor a label */
    HEAL_E_OTHER_CODE = 42, /* other code has the same program id */
    HEAL_E_STORE_FULL = 43, /* the store is full: 256 programs */
    HEAL_E_BAD_NAME = 44, /* an invalid name: not 1 to 32 bytes from 0x21 to 0x7e */
    HEAL_E_OTHER_NUMBER = 45, /* the exchange numbers differ */
    HEAL_E_OWN_OFFER = 46, /* a message from the side itself */
    HEAL_E_WITHDRAWN = 47, /* the name is already withdrawn */
    HEAL_E_LIST_CLOSED = 48, /* the list of withdrawn names is closed */
    HEAL_E_MOVED = 49, /* other tables, uptimes or withdrawn names were merged */
    HEAL_E_CUT = 70, /* a message that ends too early */
    HEAL_E_HEADER = 71, /* not a message of this kind */
    HEAL_E_TRAILING = 72, /* extra bytes after the message */
    HEAL_E_COUNT = 73, /* a count above its limit: 1,048,576 rows or names, 8,192 bytes of code */
    HEAL_E_SIDE = 74, /* an unknown side */
    HEAL_E_NAME = 75, /* an invalid name in a message */
    HEAL_E_RESOLVER = 76, /* an unknown kind of resolver */
    HEAL_E_NAME_AGAIN = 77, /* a name that the list already has */
    HEAL_E_NAME_ORDER = 78, /* a name that isn't above the one before it */
    HEAL_E_NO_PROGRAM = 79, /* a program without code in this row or an earlier one */
    HEAL_E_PROGRAM_AGAIN = 80, /* code that an earlier row already has */
    HEAL_E_PROGRAM = 81, /* code in a message that the verifier rejects */
    HEAL_E_VERSION = 82, /* an unsupported version of messages */
    HEAL_E_OTHER_MESSAGE = 83, /* a message that differs from the one of its kind and number that was heard */
    HEAL_E_CHECKSUM = 84, /* bytes that differ from their checksum */
    HEAL_E_OUT_OF_MEMORY = 90, /* out of memory */
    HEAL_E_EMPTY_HANDLE = 91, /* an empty handle */
    HEAL_E_OUT_OF_RANGE = 92, /* an index out of range */
    HEAL_E_OTHER_LENGTH = 93, /* a buffer of another length */
    HEAL_E_STILL_NAMED = 94, /* a registered name has the program as its resolver */
    HEAL_E_NOT_PRIMARY = 95, /* the replica isn't the primary of its view */
    HEAL_E_OTHER_VIEW = 96, /* an entry of another view */
    HEAL_E_GAP = 97, /* entries before this one are missing */
    HEAL_E_OWN_VIEW = 98, /* a snapshot of the replica's own latest view */
    HEAL_E_EXHAUSTED = 99, /* no number is left for a view or an entry */
};
/* The end of what refusals.py writes. */

typedef struct { void *at; } heal_program; /* a verified program */
typedef struct { void *at; } heal_bpf;     /* a verified program for contexts of one length, with a memory for its runs */
typedef struct { void *at; } heal_side;    /* one half's side of exchanges, with its table and its uploads */
typedef struct { void *at; } heal_bytes;   /* a message */
typedef struct { void *at; } heal_outcome; /* a finished exchange */
typedef struct { void *at; } heal_replica; /* a node's copy of a half */

/* Bytes that a call lends. Start it with HEAL_NO_BYTES. */
typedef struct {
    const uint8_t *data;
    size_t len;
    uint64_t reserved; /* zero */
} heal_span;

#define HEAL_NO_BYTES { (const uint8_t *)"", 0, 0 }

typedef struct {
    uint32_t node;
    uint32_t serial;
} heal_owner;

typedef struct {
    heal_owner owner;
    uint64_t stamp;      /* when it was registered, in your unit */
    uint64_t weight;     /* read by programs only */
    uint8_t extra[16];   /* read by programs only */
    uint32_t resolver;   /* HEAL_EXIT to HEAL_PROGRAM; 76 otherwise */
    uint8_t program[32]; /* the id of the program; not read for other resolvers, and zero in results */
    uint32_t reserved;   /* not read, and zero in results */
} heal_registration;

typedef struct {
    uint32_t len;
    uint8_t bytes[32]; /* the name, then zeros */
    uint32_t reserved; /* zero */
} heal_name;

typedef struct {
    heal_name name;
    heal_registration registration;
    uint64_t reserved; /* zero */
} heal_row;

typedef struct {
    uint64_t size;     /* names in the table of this half */
    uint64_t uptime;   /* of this half, in your unit */
    uint64_t reserved; /* not read */
} heal_facts;

typedef struct {
    uint64_t r0;
    uint32_t steps;
    uint32_t reserved; /* zero */
} heal_ended;

typedef struct {
    heal_name name;
    heal_registration first;  /* the registration that precedes in the order of registrations */
    heal_registration second;
    uint64_t word;            /* at which the clash was judged */
    uint32_t verdict;         /* the resolver's: HEAL_NEITHER, HEAL_FIRST or HEAL_SECOND */
    uint32_t keeps;           /* who keeps the name: the verdict, or HEAL_NEITHER if the winner was withdrawn */
    uint32_t first_half;      /* HEAL_A if half A registered `first`, HEAL_B if half B did */
    uint32_t notices;         /* how many to deliver: 0, 1 or 2 */
    uint64_t reserved;        /* zero */
} heal_clash;

typedef struct {
    uint32_t kind;    /* HEAL_NOTICE_EXIT: `to` exits. HEAL_NOTICE_CONFLICT: `to` no longer holds the name.
                         HEAL_NOTICE_CONFLICT_WITH: neither `to` nor `other` holds it. */
    heal_owner to;
    heal_owner other;  /* zero unless HEAL_NOTICE_CONFLICT_WITH */
    uint32_t reserved; /* zero */
} heal_notice;

/* What a side knows. Flags are 0 or 1. Without an open exchange `number` and `missing` are 0. */
typedef struct {
    uint32_t side;           /* HEAL_A or HEAL_B */
    uint32_t is_open;        /* an exchange is open */
    uint32_t has_heard;      /* the other side's offer was heard in it */
    uint32_t has_closed;     /* the list of this side is closed */
    uint32_t has_heard_list; /* the other side's list was heard */
    uint32_t missing;        /* the first thing that the exchange lacks: HEAL_LACKS_NOTHING to HEAL_LACKS_LIST */
    uint32_t has_begun;      /* the side has begun a number */
    uint32_t reserved;       /* zero */
    uint64_t number;         /* of the open exchange */
    uint64_t latest;         /* the greatest number begun, or 0 */
    uint64_t missing_clash;  /* the first clash without a ruling for HEAL_LACKS_RULING, or 0 */
    uint64_t withdrawn;      /* how many names the side withdrew in the open exchange */
} heal_side_state;

/* The first fields of a message. */
typedef struct {
    uint32_t kind;     /* HEAL_OFFER or HEAL_LIST */
    uint32_t version;  /* of the format: 1 */
    uint32_t side;     /* the sender: HEAL_A or HEAL_B */
    uint32_t reserved; /* zero */
    uint64_t number;   /* of the exchange */
    uint64_t seed;     /* of an offer; 0 of a list */
} heal_head;

typedef struct {
    uint32_t number; /* of the refusal, or 0 */
    uint32_t place;  /* HEAL_AT_BYTE: `at` is the byte where the faulty field begins. HEAL_AT_ITEM: `at` is the faulty row of an
                        offer, or the faulty name of a list. HEAL_AT_NONE: `at` is 0. All count from 0. */
    uint64_t at;
    uint32_t reason; /* for 81 the refusal of the row's code; otherwise 0 */
    uint32_t slot;   /* for 81 the slot of that refusal, or 0 */
    uint64_t reserved; /* zero */
} heal_fault;

/* One life of a node. A node that restarts stores an incarnation that it never had, and then starts with it. */
typedef struct {
    uint64_t incarnation;
    uint32_t node;
    uint32_t reserved; /* not read, and zero in results */
} heal_life;

/* A position: a view, and how many entries of the view led to it. */
typedef struct {
    heal_life primary; /* of the view */
    uint64_t view;     /* the number of the view: its primary counts from 1 */
    uint64_t op;       /* how many entries of the view led to the position */
    uint64_t reserved; /* not read, and zero in results */
} heal_position;

/* What a replica knows. Flags are 0 or 1. */
typedef struct {
    heal_position at;
    uint64_t names;      /* in its table */
    uint64_t limit;      /* of names */
    uint64_t latest;     /* the greatest number of an exchange that the half began, or 0 */
    uint32_t has_begun;  /* the half has begun a number */
    uint32_t is_primary; /* it is the primary of its view */
    uint64_t reserved;   /* zero */
} heal_replica_state;

/* What a log begins with. */
typedef struct {
    uint32_t kind;     /* HEAL_LOG_END, HEAL_LOG_CUT, HEAL_ENTRY or HEAL_SNAPSHOT */
    uint32_t reserved; /* zero */
    uint64_t size;     /* the number of bytes of the entry or the snapshot, otherwise 0 */
} heal_front;

/* Returns the version of the library: HEAL_VERSION of its header. */
uint32_t heal_version(void);

/* ---- Programs ---- */

/* Reads `len` bytes as a program (RFC 9669), verifies it, and puts it into the handle.
   Rejects bytes that spell no code (1 to 7) and code that breaks a rule of the verifier (10 to 26). `slot` receives the
   slot of the refusal, or 0. */
uint32_t heal_program_load(const uint8_t *code, size_t len, heal_program *program, uint32_t *slot);

/* Runs the program on the record of a clash. It ends after at most as many steps as it has instructions. */
uint32_t heal_program_judge(const heal_program *program, const uint8_t record[160], heal_ended *ended);

/* Returns the program's id: the SHA-256 digest of its bytes. */
uint32_t heal_program_id(const heal_program *program, uint8_t id[32]);

void heal_program_free(heal_program *program);

/* The next three calls don't need the registry: they run untrusted programs that decide over any bytes, the context. A program starts
   with the address of the context in R1 and the end of a stack of 512 bytes in R10. It reads only the context and the stack bytes that
   it wrote, writes only the stack, and answers with R0. */

/* Reads `len` bytes as a program for contexts of `context_len` bytes, from 0 to 65,535, verifies it, and puts it into the handle.
   Rejects a greater length (92), and otherwise what heal_program_load rejects, with the slot; 21 is an access that may leave the
   context. */
uint32_t heal_bpf_load(const uint8_t *code, size_t len, uint32_t context_len, heal_bpf *bpf, uint32_t *slot);

/* Runs the program on a context. It ends after at most as many steps as it has instructions, and its answer depends on the context
   alone. Returns 93 unless `len` is the length of its contexts. Needs no memory. One thread at a time may run with a handle. */
uint32_t heal_bpf_run(heal_bpf *bpf, const uint8_t *context, size_t len, heal_ended *ended);

void heal_bpf_free(heal_bpf *bpf);

/* Writes the record of a clash of two registrations of a name at a word. Returns 44 and 76. */
uint32_t heal_record(const uint8_t *name, size_t len, const heal_registration *first, const heal_registration *second,
                     uint64_t word, const heal_facts *of_first, const heal_facts *of_second, uint8_t record[160]);

/* Copies the words of a refusal, without a zero byte, and returns how many bytes they have. Copies nothing if they have
   more than `capacity`. The words of an unknown number are "unknown refusal". */
size_t heal_refusal_words(uint32_t number, uint8_t *words, size_t capacity);

/* ---- A side ---- */

/* Creates an idle side without names: HEAL_A or HEAL_B. Two halves that meet are one A and one B. Returns 74 for another id. */
uint32_t heal_side_new(uint32_t id, heal_side *side);

/* Creates a side like heal_side_new, which may have `names` names, from 1 to HEAL_MOST_NAMES; heal_side_new uses
   HEAL_MAX_NAMES. The side counts 16 events for each of these names. No call changes the limit. Returns 92 for another number of
   names. The two sides of an exchange may have different limits: each refuses a union above its own (37). */
uint32_t heal_side_new_within(uint32_t id, size_t names, heal_side *side);

void heal_side_free(heal_side *side);

/* Verifies a program, keeps it for registrations of this side, and returns its id.
   Rejects what heal_program_load rejects, an id that other code has (42), and a 257th program (43). */
uint32_t heal_side_upload(heal_side *side, const uint8_t *code, size_t len, uint8_t id[32], uint32_t *slot);

/* Forgets an uploaded program that no row of the side's table names, so that another one has room. No registration can name it
   any more. Returns 94 if a row names it, else 41 if it isn't uploaded. Needs no memory. */
uint32_t heal_side_forget(heal_side *side, const uint8_t id[32]);

/* Puts the code of a program into `code`: of an uploaded one, or of one that a row of the side's table names, also if it came from
   the other half. Returns 41 for an unknown program. */
uint32_t heal_side_code(const heal_side *side, const uint8_t id[32], heal_bytes *code);

/* Returns the id of uploaded program i, from 0, in the order of ids. Returns 92 for an index that is too big. */
uint32_t heal_side_program(const heal_side *side, size_t i, uint8_t id[32]);

/* Registers a name on an idle side. Returns 30 for a registered name, 32 if the table is full, 33 if an exchange is open,
   40 if the count of events is full, 41 for a program that isn't uploaded, 42 if the table has other code under its id. */
uint32_t heal_side_register(heal_side *side, const uint8_t *name, size_t len, const heal_registration *registration);

/* Unregisters a name on an idle side. Returns 31 for a name that isn't registered, 33, 40. Needs no memory. */
uint32_t heal_side_unregister(heal_side *side, const uint8_t *name, size_t len);

/* Looks a name up. Returns 31 for a name that isn't registered, or that the side withdrew in the open exchange. */
uint32_t heal_side_whereis(const heal_side *side, const uint8_t *name, size_t len, heal_registration *registration);

/* Returns the number of names in the side's table; in an open exchange, with the withdrawn ones. */
uint32_t heal_side_count(const heal_side *side, size_t *count);

/* Returns row i of the side's table in the order of names, from 0; in an open exchange, with the withdrawn ones. Walks the
   i rows before it: to list rows use heal_side_row_after. Returns 92 for an index of `count` or more. */
uint32_t heal_side_row(const heal_side *side, size_t i, heal_row *row);

/* Returns the first row of the side's table whose name is above this one, in the order of names; in an open exchange, also
   a withdrawn one. Names are in the order of their bytes, so row 0 and then the row after each name list the table. Takes
   logarithmic time. Returns 44 for an invalid name, 92 if no name is above it. */
uint32_t heal_side_row_after(const heal_side *side, const uint8_t *name, size_t len, heal_row *row);

/* Like heal_side_row and heal_side_row_after, without the names that the side withdrew in the open exchange. */
uint32_t heal_side_live(const heal_side *side, size_t i, heal_row *row);
uint32_t heal_side_live_after(const heal_side *side, const uint8_t *name, size_t len, heal_row *row);

/* Returns what the side knows. After 39 `missing` states what is missing. */
uint32_t heal_side_query(const heal_side *side, heal_side_state *state);

/* Returns name i, from 0, of those that the side withdrew in the open exchange, the earliest first. Returns 92 for an index
   that is too big; without an open exchange every index is. */
uint32_t heal_side_withdrawn(const heal_side *side, size_t i, heal_name *name);

/* Opens an exchange and puts the offer to be sent into `offer`. Until finish or abandon the table doesn't change.
   Both halves use the same number and seed; each gives its own uptime. Returns 33 if an exchange is open, 35 for a number
   that isn't above every number this side began, 40. Call heal_side_renew before it: see EVENTS. A side that is created after a
   restart knows no earlier number: store the greatest number before you begin it, and go on above it. If a number is begun again, a
   late message of the earlier exchange is taken for one of the new exchange, and the halves may finish with different tables. */
uint32_t heal_side_begin(heal_side *side, uint64_t number, uint64_t seed, uint64_t uptime, heal_bytes *offer);

/* Hears the other side's offer: the bytes that its heal_side_begin returned. The same offer again changes nothing but the count of
   events. Refusals come in this order:
   - by the head alone, which is 25 bytes of an offer and 17 of a list: 70, 71, 74 or 82 if it isn't the head of either; then 34 if no
     exchange is open; then, for a message of another number (45) or of the side itself (46), the least of 40, 45 and 46;
   - by all bytes: 70 to 82 if they aren't an offer;
   - 83 for an offer that differs from the one that was heard; for the first one 36 if the seeds differ, and 37 if both tables have more
     names together than the side may have; then 40, and 42 if the tables have two codes under one id. */
uint32_t heal_side_hear(heal_side *side, const uint8_t *offer, size_t len);

/* Judges every clash that has no ruling, at the word that the other half judges it at too. Returns 34, 39 if the other's
   offer isn't heard, 40 if the count of events has no room for one each. Needs no memory. */
uint32_t heal_side_settle(heal_side *side);

/* Withdraws a name in the open exchange: its owner on this half is gone. Returns 31 for a name that isn't in the table,
   34, 40, 47 for a name that is already withdrawn, 48 if the list is closed. */
uint32_t heal_side_withdraw(heal_side *side, const uint8_t *name, size_t len);

/* Closes the list of withdrawn names and puts the list to be sent into `list`. Returns 34, 40, 48 if already closed. */
uint32_t heal_side_close_list(heal_side *side, heal_bytes *list);

/* Hears the other side's list: the bytes that its heal_side_close_list returned. The same list again changes nothing but the count
   of events. Refuses the head as heal_side_hear does, also with 34 or the least of 40, 45 and 46; then rejects bytes that aren't a
   list (70 to 82), and returns 83 for a list that differs from the one that was heard, and 40. */
uint32_t heal_side_hear_list(heal_side *side, const uint8_t *list, size_t len);

/* Replaces the table by the merge, closes the exchange, and puts its outcome into `outcome`. Returns 34, 39 if a part is
   missing (the other's offer, a ruling, or a list), 40. */
uint32_t heal_side_finish(heal_side *side, heal_outcome *outcome);

/* Closes the exchange and keeps the table, without the withdrawn names. Returns 34, 40. Needs no memory. */
uint32_t heal_side_abandon(heal_side *side);

/* Returns the side's count of events, at most 16 for each name that it may have. */
uint32_t heal_side_events(const heal_side *side, size_t *events);

/* Starts a fresh count of events on an idle side: as many as it has names, and at most two more. Names, uploads and the
   greatest number begun stay. Returns 33 if an exchange is open. Needs no memory. */
uint32_t heal_side_renew(heal_side *side);

/* Closes the open exchange as heal_side_abandon does, if there is one, and starts a fresh count of events, also where the
   count is full. Returns only 91. Needs no memory. */
uint32_t heal_side_give_up(heal_side *side);

/* ---- A message ---- */

/* Returns the number of bytes. */
uint32_t heal_bytes_len(const heal_bytes *bytes, size_t *len);

/* Lends the message: `span` has its bytes. They stay where they are, and may be read, until the message is freed or a call fills the
   handle. Copies nothing. */
uint32_t heal_bytes_lend(const heal_bytes *bytes, heal_span *span);

/* Copies the message to `to`. Returns 93 unless `len` is the number of its bytes. */
uint32_t heal_bytes_copy(const heal_bytes *bytes, uint8_t *to, size_t len);

void heal_bytes_free(heal_bytes *bytes);

/* Reads the first fields of a received message, 25 bytes of an offer and 17 of a list, and nothing else. Returns 70 if the bytes end
   within them, 71 for no message, 74, 82. */
uint32_t heal_message_peek(const uint8_t *message, size_t len, heal_head *head);

/* Finds the first fault of a received message: reads it as an offer or as a list, without a side, writes the fault in full, and
   returns its number: 70 to 82, or 0 for a message without fault. Takes as long as hearing it. Also returns 90. */
uint32_t heal_offer_fault(const uint8_t *offer, size_t len, heal_fault *fault);
uint32_t heal_list_fault(const uint8_t *list, size_t len, heal_fault *fault);

/* ---- An outcome ---- */

/* Returns the number of the exchange. */
uint32_t heal_outcome_number(const heal_outcome *outcome, uint64_t *number);

/* Returns the number of names in the merged table. */
uint32_t heal_outcome_merged(const heal_outcome *outcome, size_t *names);

/* Returns name i, from 0, of those that half HEAL_A or HEAL_B withdrew, the earliest first. Returns 74 for another half, and 92 for an
   index that is too big. */
uint32_t heal_outcome_withdrawn(const heal_outcome *outcome, uint32_t half, size_t i, heal_name *name);

/* Returns the number of clashes. */
uint32_t heal_outcome_clashes(const heal_outcome *outcome, size_t *clashes);

/* Returns clash i in the order of names, from 0. Returns 92 for an index of `clashes` or more. */
uint32_t heal_outcome_clash(const heal_outcome *outcome, size_t i, heal_clash *clash);

/* Returns notice n, from 0, of clash i. Only verdicts of built-in resolvers have notices. Returns 92 for an index that is
   too big. A withdrawn registration still takes part in its clash, and may win. Then nobody keeps the name: `keeps` differs from
   `verdict`, and the clash has no notices. Unless the half of the other owner withdrew the name too, register that owner again on its
   half, which is `first_half` if the verdict is HEAL_SECOND, and the other half if it is HEAL_FIRST. */
uint32_t heal_outcome_notice(const heal_outcome *outcome, size_t i, size_t n, heal_notice *notice);

void heal_outcome_free(heal_outcome *outcome);

/* ---- Replicas: a half of many nodes ----
 *
 * Each node of a half has a replica at a position. The primary of a view carries edits out, and each puts an entry into `entry`; its
 * backups apply the entries in order, so that replicas at one position have one table. Any replica may lead: it starts a view with
 * the half that it has. The others follow its snapshot.
 *
 * Entries and snapshots are bytes, for other nodes and for disks. A log is a snapshot and the entries of its view after it:
 *   - Write an entry to the log, and sync it, before you acknowledge the edit or send the entry to a backup.
 *   - After heal_replica_lead, heal_replica_follow and heal_replica_change start a new log with heal_replica_snapshot: write and sync
 *     it under another name, then rename it.
 *   - To restart, store and sync an incarnation that the node never had, start with it, read the log by heal_log_front, follow the
 *     snapshot and apply the entries. A log that ends within an entry (HEAL_LOG_CUT) ends with the entry before: the last edit
 *     wasn't acknowledged. Then lead, or follow another node.
 *   - For an exchange call heal_replica_side, then heal_replica_begin with its number, so that it is never used again, and only then
 *     heal_side_begin: a side that was made after the edit returns 35 for the number. Carry out no other edit from heal_replica_side
 *     until heal_replica_change returns, nor on the half that follows until it has followed: an edit that the side doesn't have, and
 *     that was made before `from` or by the half that follows, would be lost without a refusal. */

/* Starts a replica with an empty half, as the primary of its first view. No two lives of a node may share an incarnation. */
uint32_t heal_replica_start(const heal_life *life, heal_replica *replica);

void heal_replica_free(heal_replica *replica);

/* Returns what the replica knows. */
uint32_t heal_replica_query(const heal_replica *replica, heal_replica_state *state);

/* Edits of the primary. Each returns 95 if the replica isn't the primary of its view, and 99 if no operation number is left; then
   what the half refuses. If it returns 0, `entry` has the bytes to store and to send. */

/* Registers a name. Returns 44 and 76 for arguments, 95, 99, 30, 32 for a full table, 41 for a program that isn't uploaded, 42. */
uint32_t heal_replica_register(heal_replica *replica, const uint8_t *name, size_t len, const heal_registration *registration,
                               heal_bytes *entry);

/* Unregisters a name. Returns 44, 95, 99, 31. */
uint32_t heal_replica_unregister(heal_replica *replica, const uint8_t *name, size_t len, heal_bytes *entry);

/* Keeps a loaded program for registrations. Returns 95, 99, 42, and 43 for a 257th program. */
uint32_t heal_replica_upload(heal_replica *replica, const heal_program *program, heal_bytes *entry);

/* Sets how many names registrations may bring the table to, from 1 to HEAL_MOST_NAMES; a replica starts with HEAL_MAX_NAMES.
   Returns 92 for another number, 95, 99, 32 if the table has more names. */
uint32_t heal_replica_limit(heal_replica *replica, size_t names, heal_bytes *entry);

/* Records the number of an exchange that is about to begin. Returns 95, 99, 35 unless it is above every number recorded so far. */
uint32_t heal_replica_begin(heal_replica *replica, uint64_t number, heal_bytes *entry);

/* Starts a view with the half as it is; the replica is its primary. Returns 99 if no view number is left. Needs no memory. */
uint32_t heal_replica_lead(heal_replica *replica);

/* Puts a snapshot into `snapshot`: the position and the whole half. */
uint32_t heal_replica_snapshot(const heal_replica *replica, heal_bytes *snapshot);

/* Takes the position and the half of a snapshot. Rejects bytes that aren't a snapshot (70 to 84), then one of the latest view that
   the replica started (98). */
uint32_t heal_replica_follow(heal_replica *replica, const uint8_t *snapshot, size_t len);

/* Applies an entry: carries its edit out if it is the next of the view, and changes nothing if the replica has it. Rejects bytes that
   aren't an entry (70 to 84); then returns 96 for an entry of another view and 97 if an earlier entry is missing. In both cases
   follow a snapshot. */
uint32_t heal_replica_apply(heal_replica *replica, const uint8_t *entry, size_t len);

/* Looks a name up. Returns 44, 31. */
uint32_t heal_replica_whereis(const heal_replica *replica, const uint8_t *name, size_t len, heal_registration *registration);

/* Rows, like heal_side_row and heal_side_row_after. */
uint32_t heal_replica_row(const heal_replica *replica, size_t i, heal_row *row);
uint32_t heal_replica_row_after(const heal_replica *replica, const uint8_t *name, size_t len, heal_row *row);

/* Puts an idle side with the table, the programs and the limit of the replica into `side`, for an exchange with the other half's
   primary. Returns 74 for another `id`, 32 if the table has more names than the limit. */
uint32_t heal_replica_side(const heal_replica *replica, uint32_t id, heal_side *side);

/* Starts a view with the table that the exchange left in the side, and with the greater of the greatest numbers of the side and of the
   replica. After an abandoned exchange the table lacks the names that were withdrawn. The view has the programs and the limit of this half: upload those of the other half again for
   registrations with them. `from` is the position right after heal_replica_begin.
   Returns 33 if the side's exchange is open, 49 if the replica isn't at `from` any more, so that no edit after it is lost: exchange again.
   Returns 99 if no view number is left. */
uint32_t heal_replica_change(heal_replica *replica, const heal_position *from, const heal_side *side);

/* Reads what a log begins with, and nothing behind it. Returns 71 for bytes that begin with neither an entry nor a snapshot, 82 for
   another version, and 84 for a header and a length that differ from their checksum: a changed length is no cut. A header has 8 bytes,
   and 24 with the length and the checksum: fewer bytes are HEAL_LOG_CUT, also if they begin no message. */
uint32_t heal_log_front(const uint8_t *log, size_t len, heal_front *front);

#ifdef __cplusplus
}
#endif

#endif
