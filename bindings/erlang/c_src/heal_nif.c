/*
 * The NIF of the module heal, over the C library libheal.
 *
 * Programs, sides, outcomes and replicas are resources: the garbage collector frees them. Calls whose time grows with a table, a message
 * or a program run on dirty schedulers.
 *
 * Programs and outcomes never change, so any number of processes read them at the same time, without a lock. So they read a side or a replica,
 * until a call that changes it waits: that must be the only one. A call that finds the side taken returns `busy` at once, and
 * the module heal makes it again a moment later: the process waits, and no scheduler does. The first process that finds a side
 * taken has the next turn, so processes that call again and again can't keep the others away. The turn is lost after a while,
 * in case its process is dead.
 */
#include <erl_nif.h>
#include <stdbool.h>
#include <string.h>

#include "heal.h"

typedef ERL_NIF_TERM term;

enum { ID_LEN = HEAL_ID_LEN, EXTRA_LEN = HEAL_EXTRA_LEN, RECORD_LEN = HEAL_RECORD_LEN };
enum { NO_SUCH_NAME = 31, OUT_OF_MEMORY = 90 };
/* The refusals that name a slot. */
enum { FIRST_WITH_SLOT = 4, LAST_WITH_SLOT = 26 };

/* How long a process keeps the next turn since its last call, in milliseconds. */
enum { TURN = 50 };

/* A resource: whose turn it is, if it is a side, and one handle. All handles of libheal are one word. */
typedef struct {
    ErlNifMutex *lock; /* of the next four fields; held for a few instructions only */
    bool taken;        /* by a call that changes it */
    unsigned readers;
    ErlNifPid next;
    ErlNifTime next_until;
    union {
        heal_program program;
        heal_side side;
        heal_outcome outcome;
        heal_replica replica;
    } handle;
} resource;

static ErlNifResourceType *program_type, *side_type, *outcome_type, *replica_type;

#define ATOMS(X) \
    X(ok) X(error) X(a) X(b) X(owner) X(stamp) X(weight) X(extra) X(resolver) X(exit) X(notify) X(notify_all) \
    X(program) X(size) X(uptime) X(name) X(first) X(second) X(neither) X(word) X(verdict) X(keeps) X(first_half) X(notices) \
    X(conflict) X(conflict_with) X(busy) X(side) X(open) X(latest) X(missing) X(withdrawn) X(none) X(nothing) X(offer) \
    X(ruling) X(own_list) X(list) X(kind) X(number) X(seed) X(view) X(op) X(at) X(names) X(limit) X(is_primary) X(true) \
    X(false) X(empty) X(cut) X(entry) X(snapshot)

#define DECLARE(NAME) static term atom_##NAME;
ATOMS(DECLARE)

/* ---- Results ---- */

static term ok(ErlNifEnv *env, term value)
{
    return enif_make_tuple2(env, atom_ok, value);
}

static term copy_of(ErlNifEnv *env, const void *bytes, size_t len)
{
    term made;
    unsigned char *to = enif_make_new_binary(env, len, &made);
    if (len > 0)
        memcpy(to, bytes, len);
    return made;
}

/* {error, {Number, Words}}. The words of a faulty program end with its slot. */
static term refused_at(ErlNifEnv *env, uint32_t number, uint32_t slot)
{
    uint8_t words[512];
    size_t len = heal_refusal_words(number, words, sizeof words - 32);
    if (len > sizeof words - 32)
        len = 0;
    if (number >= FIRST_WITH_SLOT && number <= LAST_WITH_SLOT)
        len += (size_t)enif_snprintf((char *)words + len, 32, " at slot %u", slot);
    term refusal = enif_make_tuple2(env, enif_make_uint(env, number), copy_of(env, words, len));
    return enif_make_tuple2(env, atom_error, refusal);
}

static term refused(ErlNifEnv *env, uint32_t number)
{
    return refused_at(env, number, 0);
}

static term done(ErlNifEnv *env, uint32_t number)
{
    return number == 0 ? atom_ok : refused(env, number);
}

static term message(ErlNifEnv *env, uint32_t number, heal_bytes *bytes)
{
    size_t len = 0;
    if (number == 0)
        number = heal_bytes_len(bytes, &len);
    if (number != 0)
        return refused(env, number);
    term made;
    unsigned char *to = enif_make_new_binary(env, len, &made);
    number = to == NULL ? OUT_OF_MEMORY : heal_bytes_copy(bytes, to, len);
    heal_bytes_free(bytes);
    return number == 0 ? ok(env, made) : refused(env, number);
}

/* ---- Resources ---- */

static resource *new_resource(ErlNifResourceType *type)
{
    resource *made = enif_alloc_resource(type, sizeof *made);
    if (made == NULL)
        return NULL;
    memset(made, 0, sizeof *made);
    made->next_until = enif_monotonic_time(ERL_NIF_MSEC);
    enif_set_pid_undefined(&made->next);
    made->lock = enif_mutex_create("heal");
    if (made->lock != NULL)
        return made;
    enif_release_resource(made);
    return NULL;
}

/* Returns the resource as a term if the number is 0, and gives it up in any case. */
static term handed(ErlNifEnv *env, uint32_t number, uint32_t slot, resource *made)
{
    term result = number == 0 ? ok(env, enif_make_resource(env, made)) : refused_at(env, number, slot);
    enif_release_resource(made);
    return result;
}

static void free_lock(resource *held)
{
    if (held->lock != NULL)
        enif_mutex_destroy(held->lock);
}

static void free_program(ErlNifEnv *env, void *held)
{
    (void)env;
    heal_program_free(&((resource *)held)->handle.program);
    free_lock(held);
}

static void free_side(ErlNifEnv *env, void *held)
{
    (void)env;
    heal_side_free(&((resource *)held)->handle.side);
    free_lock(held);
}

static void free_outcome(ErlNifEnv *env, void *held)
{
    (void)env;
    heal_outcome_free(&((resource *)held)->handle.outcome);
    free_lock(held);
}

static void free_replica(ErlNifEnv *env, void *held)
{
    (void)env;
    heal_replica_free(&((resource *)held)->handle.replica);
    free_lock(held);
}

typedef term body(ErlNifEnv *env, resource *held, const term argv[]);

/* Takes the resource, alone or with other readers, unless another process has the next turn or a call runs on it that excludes
   this one. If not, the caller gets the next turn, unless another process has it. */
static bool enter(ErlNifEnv *env, resource *held, bool reads)
{
    ErlNifPid self;
    enif_self(env, &self);
    ErlNifTime now = enif_monotonic_time(ERL_NIF_MSEC);
    enif_mutex_lock(held->lock);
    bool may = now >= held->next_until || enif_compare_pids(&held->next, &self) == 0;
    bool enters = may && !held->taken && (reads || held->readers == 0);
    if (enters) {
        held->taken = !reads;
        held->readers += reads;
        held->next_until = now;
    } else if (may) {
        held->next = self;
        held->next_until = now + TURN;
    }
    enif_mutex_unlock(held->lock);
    return enters;
}

static void leave(resource *held, bool reads)
{
    enif_mutex_lock(held->lock);
    held->taken = false;
    held->readers -= reads;
    enif_mutex_unlock(held->lock);
}

/* Runs a call on a side or a replica, its first argument, or returns `busy`. */
static term in_turn(ErlNifEnv *env, const term argv[], ErlNifResourceType *type, bool reads, body *run)
{
    resource *held;
    if (!enif_get_resource(env, argv[0], type, (void **)&held))
        return enif_make_badarg(env);
    if (!enter(env, held, reads))
        return atom_busy;
    term result = run(env, held, argv);
    leave(held, reads);
    return result;
}

/* Runs a call that only reads its first argument, which no call changes. */
static term reading(ErlNifEnv *env, const term argv[], ErlNifResourceType *type, body *run)
{
    resource *held;
    if (!enif_get_resource(env, argv[0], type, (void **)&held))
        return enif_make_badarg(env);
    return run(env, held, argv);
}

/* Defines the NIF `NAME`, whose first argument is a program or an outcome, from `NAME_body`. */
#define READING(NAME, TYPE) \
    static term NAME(ErlNifEnv *env, int argc, const term argv[]) \
    { \
        (void)argc; \
        return reading(env, argv, TYPE, NAME##_body); \
    }

/* Defines the NIF `NAME`, which changes its first argument, a side or a replica, from `NAME_body`. */
#define IN_TURN(NAME, TYPE) \
    static term NAME(ErlNifEnv *env, int argc, const term argv[]) \
    { \
        (void)argc; \
        return in_turn(env, argv, TYPE, false, NAME##_body); \
    }

/* The same for one that only reads it. */
#define WITH_READERS(NAME, TYPE) \
    static term NAME(ErlNifEnv *env, int argc, const term argv[]) \
    { \
        (void)argc; \
        return in_turn(env, argv, TYPE, true, NAME##_body); \
    }

/* ---- Arguments ---- */

static bool get_bytes(ErlNifEnv *env, term from, ErlNifBinary *to)
{
    return enif_inspect_binary(env, from, to) != 0;
}

static bool get_u64(ErlNifEnv *env, term from, uint64_t *to)
{
    ErlNifUInt64 read;
    if (!enif_get_uint64(env, from, &read))
        return false;
    *to = read;
    return true;
}

static bool get_u32(ErlNifEnv *env, term from, uint32_t *to)
{
    unsigned read;
    if (!enif_get_uint(env, from, &read))
        return false;
    *to = read;
    return true;
}

/* Reads a number of a map, which is 0 if the key is missing and not required. */
static bool get_field(ErlNifEnv *env, term map, term key, bool required, uint64_t *to)
{
    term value;
    *to = 0;
    return enif_get_map_value(env, map, key, &value) ? get_u64(env, value, to) : !required;
}

static bool get_owner(ErlNifEnv *env, term map, heal_owner *to)
{
    term pair;
    int arity;
    const term *words;
    return enif_get_map_value(env, map, atom_owner, &pair) && enif_get_tuple(env, pair, &arity, &words) && arity == 2
        && get_u32(env, words[0], &to->node) && get_u32(env, words[1], &to->serial);
}

static bool get_extra(ErlNifEnv *env, term value, uint8_t to[EXTRA_LEN])
{
    ErlNifBinary bytes;
    if (!get_bytes(env, value, &bytes) || bytes.size != EXTRA_LEN)
        return false;
    memcpy(to, bytes.data, EXTRA_LEN);
    return true;
}

/* Reads `exit`, `notify`, `notify_all` or `{program, Id}`. */
static bool get_resolver(ErlNifEnv *env, term value, heal_registration *to)
{
    int arity;
    const term *words;
    ErlNifBinary id;
    to->resolver = HEAL_EXIT;
    if (enif_is_identical(value, atom_exit))
        return true;
    if (enif_is_identical(value, atom_notify)) {
        to->resolver = HEAL_NOTIFY;
        return true;
    }
    if (enif_is_identical(value, atom_notify_all)) {
        to->resolver = HEAL_NOTIFY_ALL;
        return true;
    }
    if (!enif_get_tuple(env, value, &arity, &words) || arity != 2 || !enif_is_identical(words[0], atom_program)
        || !get_bytes(env, words[1], &id) || id.size != ID_LEN)
        return false;
    to->resolver = HEAL_PROGRAM;
    memcpy(to->program, id.data, ID_LEN);
    return true;
}

/* Reads a map. Without weight and extra bytes these are zero; without a resolver it is `exit`. */
static bool get_registration(ErlNifEnv *env, term map, heal_registration *to)
{
    term value;
    memset(to, 0, sizeof *to);
    to->resolver = HEAL_EXIT;
    return enif_is_map(env, map) && get_owner(env, map, &to->owner) && get_field(env, map, atom_stamp, true, &to->stamp)
        && get_field(env, map, atom_weight, false, &to->weight)
        && (!enif_get_map_value(env, map, atom_extra, &value) || get_extra(env, value, to->extra))
        && (!enif_get_map_value(env, map, atom_resolver, &value) || get_resolver(env, value, to));
}

/* The rest of a registration after its serial and its stamp: a term, and the bytes that were read or will be written. Rows that follow each other
   often have it alike. */
typedef struct {
    bool is_known;
    term term;
    heal_registration registration;
} alike;

/* Reads {Node, Weight, Extra, Resolver}. */
static bool get_alike(ErlNifEnv *env, term from, heal_registration *to)
{
    int arity;
    const term *words;
    memset(to, 0, sizeof *to);
    return enif_get_tuple(env, from, &arity, &words) && arity == 4 && get_u32(env, words[0], &to->owner.node)
        && get_u64(env, words[1], &to->weight) && get_extra(env, words[2], to->extra) && get_resolver(env, words[3], to);
}

/* Reads {Serial, Stamp, Alike}. */
static bool get_values(ErlNifEnv *env, term from, alike *last, heal_registration *to)
{
    int arity;
    const term *words;
    if (!enif_get_tuple(env, from, &arity, &words) || arity != 3)
        return false;
    if (!last->is_known || last->term != words[2]) {
        last->is_known = get_alike(env, words[2], &last->registration);
        last->term = words[2];
    }
    *to = last->registration;
    return last->is_known && get_u32(env, words[0], &to->owner.serial) && get_u64(env, words[1], &to->stamp);
}

static bool get_facts(ErlNifEnv *env, term map, heal_facts *to)
{
    memset(to, 0, sizeof *to);
    return enif_is_map(env, map) && get_field(env, map, atom_size, true, &to->size)
        && get_field(env, map, atom_uptime, true, &to->uptime);
}

/* ---- Terms ---- */

static term owner_term(ErlNifEnv *env, heal_owner owner)
{
    return enif_make_tuple2(env, enif_make_uint(env, owner.node), enif_make_uint(env, owner.serial));
}

/* `exit`, `notify`, `notify_all` or `program`. */
static term resolver_kind(const heal_registration *from)
{
    switch (from->resolver) {
    case HEAL_EXIT:
        return atom_exit;
    case HEAL_NOTIFY:
        return atom_notify;
    case HEAL_NOTIFY_ALL:
        return atom_notify_all;
    default:
        return atom_program;
    }
}

static term resolver_term(ErlNifEnv *env, const heal_registration *from)
{
    term kind = resolver_kind(from);
    return kind == atom_program ? enif_make_tuple2(env, kind, copy_of(env, from->program, ID_LEN)) : kind;
}

static term map_of(ErlNifEnv *env, term keys[], term values[], size_t count)
{
    term made;
    /* The keys are distinct, so this succeeds. */
    return enif_make_map_from_arrays(env, keys, values, count, &made) ? made : enif_make_badarg(env);
}

static term registration_term(ErlNifEnv *env, const heal_registration *from)
{
    term keys[] = {atom_owner, atom_stamp, atom_weight, atom_extra, atom_resolver};
    term values[] = {owner_term(env, from->owner), enif_make_uint64(env, from->stamp), enif_make_uint64(env, from->weight),
        copy_of(env, from->extra, EXTRA_LEN), resolver_term(env, from)};
    return map_of(env, keys, values, sizeof keys / sizeof *keys);
}

/* Makes {Serial, Stamp, Alike}. */
static term values_term(ErlNifEnv *env, const heal_registration *from, alike *last)
{
    heal_registration shared = *from;
    shared.owner.serial = 0;
    shared.stamp = 0;
    if (!last->is_known || memcmp(&shared, &last->registration, sizeof shared) != 0) {
        last->is_known = true;
        last->registration = shared;
        last->term = enif_make_tuple4(env, enif_make_uint(env, from->owner.node), enif_make_uint64(env, from->weight),
            copy_of(env, from->extra, EXTRA_LEN), resolver_term(env, from));
    }
    return enif_make_tuple3(env, enif_make_uint(env, from->owner.serial), enif_make_uint64(env, from->stamp), last->term);
}

static term name_term(ErlNifEnv *env, const heal_name *name)
{
    size_t len = name->len <= HEAL_NAME_LEN ? name->len : HEAL_NAME_LEN;
    return copy_of(env, name->bytes, len);
}

static term row_term(ErlNifEnv *env, const heal_row *row)
{
    return enif_make_tuple2(env, name_term(env, &row->name), registration_term(env, &row->registration));
}

static term verdict_term(uint32_t verdict)
{
    return verdict == HEAL_FIRST ? atom_first : verdict == HEAL_SECOND ? atom_second : atom_neither;
}

static term notice_term(ErlNifEnv *env, const heal_notice *notice)
{
    term to = owner_term(env, notice->to);
    switch (notice->kind) {
    case HEAL_NOTICE_EXIT:
        return enif_make_tuple2(env, atom_exit, to);
    case HEAL_NOTICE_CONFLICT:
        return enif_make_tuple2(env, atom_conflict, to);
    default:
        return enif_make_tuple3(env, atom_conflict_with, to, owner_term(env, notice->other));
    }
}

/* ---- Programs ---- */

static term load(ErlNifEnv *env, int argc, const term argv[])
{
    ErlNifBinary code;
    uint32_t slot = 0;
    (void)argc;
    if (!get_bytes(env, argv[0], &code))
        return enif_make_badarg(env);
    resource *made = new_resource(program_type);
    if (made == NULL)
        return refused(env, OUT_OF_MEMORY);
    uint32_t number = heal_program_load(code.data, code.size, &made->handle.program, &slot);
    return handed(env, number, slot, made);
}

static term judge_body(ErlNifEnv *env, resource *held, const term argv[])
{
    ErlNifBinary record;
    heal_ended ended;
    if (!get_bytes(env, argv[1], &record) || record.size != RECORD_LEN)
        return enif_make_badarg(env);
    uint32_t number = heal_program_judge(&held->handle.program, record.data, &ended);
    if (number != 0)
        return refused(env, number);
    return enif_make_tuple3(env, atom_ok, enif_make_uint64(env, ended.r0), enif_make_uint(env, ended.steps));
}
READING(judge, program_type)

static term program_id_body(ErlNifEnv *env, resource *held, const term argv[])
{
    uint8_t id[ID_LEN];
    (void)argv;
    uint32_t number = heal_program_id(&held->handle.program, id);
    return number == 0 ? ok(env, copy_of(env, id, ID_LEN)) : refused(env, number);
}
READING(program_id, program_type)

static term record(ErlNifEnv *env, int argc, const term argv[])
{
    ErlNifBinary name;
    heal_registration first, second;
    heal_facts of_first, of_second;
    uint64_t word;
    uint8_t made[RECORD_LEN];
    (void)argc;
    if (!get_bytes(env, argv[0], &name) || !get_registration(env, argv[1], &first) || !get_registration(env, argv[2], &second)
        || !get_u64(env, argv[3], &word) || !get_facts(env, argv[4], &of_first) || !get_facts(env, argv[5], &of_second))
        return enif_make_badarg(env);
    uint32_t number = heal_record(name.data, name.size, &first, &second, word, &of_first, &of_second, made);
    return number == 0 ? ok(env, copy_of(env, made, RECORD_LEN)) : refused(env, number);
}

static term refusal_words(ErlNifEnv *env, int argc, const term argv[])
{
    uint32_t number;
    uint8_t words[512];
    (void)argc;
    if (!get_u32(env, argv[0], &number))
        return enif_make_badarg(env);
    size_t len = heal_refusal_words(number, words, sizeof words);
    return copy_of(env, words, len <= sizeof words ? len : 0);
}

/* ---- Sides ---- */

static term side(ErlNifEnv *env, int argc, const term argv[])
{
    uint64_t names;
    (void)argc;
    bool second = enif_is_identical(argv[0], atom_b);
    if ((!second && !enif_is_identical(argv[0], atom_a)) || !get_u64(env, argv[1], &names))
        return enif_make_badarg(env);
    resource *made = new_resource(side_type);
    if (made == NULL)
        return refused(env, OUT_OF_MEMORY);
    return handed(env, heal_side_new_within(second ? HEAL_B : HEAL_A, names, &made->handle.side), 0, made);
}

static term upload_body(ErlNifEnv *env, resource *held, const term argv[])
{
    ErlNifBinary code;
    uint8_t id[ID_LEN];
    uint32_t slot = 0;
    if (!get_bytes(env, argv[1], &code))
        return enif_make_badarg(env);
    uint32_t number = heal_side_upload(&held->handle.side, code.data, code.size, id, &slot);
    return number == 0 ? ok(env, copy_of(env, id, ID_LEN)) : refused_at(env, number, slot);
}
IN_TURN(upload, side_type)

static term forget_body(ErlNifEnv *env, resource *held, const term argv[])
{
    ErlNifBinary id;
    if (!get_bytes(env, argv[1], &id) || id.size != ID_LEN)
        return enif_make_badarg(env);
    return done(env, heal_side_forget(&held->handle.side, id.data));
}
IN_TURN(forget, side_type)

static term programs_body(ErlNifEnv *env, resource *held, const term argv[])
{
    uint8_t id[ID_LEN];
    term reversed = enif_make_list(env, 0), programs;
    uint32_t number;
    (void)argv;
    for (size_t i = 0; (number = heal_side_program(&held->handle.side, i, id)) == 0; i++)
        reversed = enif_make_list_cell(env, copy_of(env, id, ID_LEN), reversed);
    if (number != HEAL_NO_ROW || !enif_make_reverse_list(env, reversed, &programs))
        return refused(env, number);
    return ok(env, programs);
}
WITH_READERS(programs, side_type)

static term code_body(ErlNifEnv *env, resource *held, const term argv[])
{
    ErlNifBinary id;
    heal_bytes code = {0};
    if (!get_bytes(env, argv[1], &id) || id.size != ID_LEN)
        return enif_make_badarg(env);
    return message(env, heal_side_code(&held->handle.side, id.data, &code), &code);
}
WITH_READERS(code, side_type)

static term register_name_body(ErlNifEnv *env, resource *held, const term argv[])
{
    ErlNifBinary name;
    heal_registration registration;
    if (!get_bytes(env, argv[1], &name) || !get_registration(env, argv[2], &registration))
        return enif_make_badarg(env);
    return done(env, heal_side_register(&held->handle.side, name.data, name.size, &registration));
}
IN_TURN(register_name, side_type)

/* Reads {Name, Registration} or {Name, Values}. */
static bool get_row(ErlNifEnv *env, term from, alike *last, ErlNifBinary *name, heal_registration *to)
{
    int arity;
    const term *words;
    return enif_get_tuple(env, from, &arity, &words) && arity == 2 && get_bytes(env, words[0], name)
        && (enif_is_map(env, words[1]) ? get_registration(env, words[1], to) : get_values(env, words[1], last, to));
}

static bool are_rows(ErlNifEnv *env, term rows)
{
    term head;
    ErlNifBinary name;
    alike last = {.is_known = false};
    heal_registration registration;
    while (enif_get_list_cell(env, rows, &head, &rows))
        if (!get_row(env, head, &last, &name, &registration))
            return false;
    return enif_is_empty_list(env, rows);
}

/* Registers many names in one call. */
static term register_all_body(ErlNifEnv *env, resource *held, const term argv[])
{
    term head, rest = argv[1];
    ErlNifBinary name;
    alike last = {.is_known = false};
    heal_registration registration;
    uint32_t number = 0;
    if (!are_rows(env, rest))
        return enif_make_badarg(env);
    while (number == 0 && enif_get_list_cell(env, rest, &head, &rest) && get_row(env, head, &last, &name, &registration))
        number = heal_side_register(&held->handle.side, name.data, name.size, &registration);
    return done(env, number);
}
IN_TURN(register_all, side_type)

static term unregister_name_body(ErlNifEnv *env, resource *held, const term argv[])
{
    ErlNifBinary name;
    if (!get_bytes(env, argv[1], &name))
        return enif_make_badarg(env);
    return done(env, heal_side_unregister(&held->handle.side, name.data, name.size));
}
IN_TURN(unregister_name, side_type)

static term whereis_name_body(ErlNifEnv *env, resource *held, const term argv[])
{
    ErlNifBinary name;
    heal_registration found;
    if (!get_bytes(env, argv[1], &name))
        return enif_make_badarg(env);
    uint32_t number = heal_side_whereis(&held->handle.side, name.data, name.size, &found);
    return number == 0 ? ok(env, registration_term(env, &found)) : refused(env, number);
}
WITH_READERS(whereis_name, side_type)

static term count_body(ErlNifEnv *env, resource *held, const term argv[])
{
    size_t count = 0;
    (void)argv;
    uint32_t number = heal_side_count(&held->handle.side, &count);
    return number == 0 ? ok(env, enif_make_uint64(env, count)) : refused(env, number);
}
WITH_READERS(count, side_type)

static term rows_body(ErlNifEnv *env, resource *held, const term argv[])
{
    heal_row row;
    term reversed = enif_make_list(env, 0), rows;
    uint32_t number = heal_side_row(&held->handle.side, 0, &row);
    (void)argv;
    while (number == 0) {
        reversed = enif_make_list_cell(env, row_term(env, &row), reversed);
        number = heal_side_row_after(&held->handle.side, row.name.bytes, row.name.len, &row);
    }
    if (number != HEAL_NO_ROW || !enif_make_reverse_list(env, reversed, &rows))
        return refused(env, number);
    return ok(env, rows);
}
WITH_READERS(rows, side_type)

/* Looks many names up in one call. */
static term values_body(ErlNifEnv *env, resource *held, const term argv[])
{
    term head, rest = argv[1], rows = enif_make_list(env, 0), lacking = rows;
    alike last = {.is_known = false};
    while (enif_get_list_cell(env, rest, &head, &rest)) {
        ErlNifBinary name;
        heal_registration found;
        if (!get_bytes(env, head, &name))
            return enif_make_badarg(env);
        uint32_t number = heal_side_whereis(&held->handle.side, name.data, name.size, &found);
        if (number == 0)
            rows = enif_make_list_cell(env, enif_make_tuple2(env, head, values_term(env, &found, &last)), rows);
        else if (number == NO_SUCH_NAME)
            lacking = enif_make_list_cell(env, head, lacking);
        else
            return refused(env, number);
    }
    return enif_is_empty_list(env, rest) ? enif_make_tuple3(env, atom_ok, rows, lacking) : enif_make_badarg(env);
}
WITH_READERS(values, side_type)

static term begin_body(ErlNifEnv *env, resource *held, const term argv[])
{
    uint64_t number, seed, uptime;
    heal_bytes offer = {0};
    if (!get_u64(env, argv[1], &number) || !get_u64(env, argv[2], &seed) || !get_u64(env, argv[3], &uptime))
        return enif_make_badarg(env);
    return message(env, heal_side_begin(&held->handle.side, number, seed, uptime, &offer), &offer);
}
IN_TURN(begin, side_type)

static term hear_body(ErlNifEnv *env, resource *held, const term argv[])
{
    ErlNifBinary offer;
    if (!get_bytes(env, argv[1], &offer))
        return enif_make_badarg(env);
    return done(env, heal_side_hear(&held->handle.side, offer.data, offer.size));
}
IN_TURN(hear, side_type)

static term settle_body(ErlNifEnv *env, resource *held, const term argv[])
{
    (void)argv;
    return done(env, heal_side_settle(&held->handle.side));
}
IN_TURN(settle, side_type)

static term withdraw_body(ErlNifEnv *env, resource *held, const term argv[])
{
    ErlNifBinary name;
    if (!get_bytes(env, argv[1], &name))
        return enif_make_badarg(env);
    return done(env, heal_side_withdraw(&held->handle.side, name.data, name.size));
}
IN_TURN(withdraw, side_type)

static term close_list_body(ErlNifEnv *env, resource *held, const term argv[])
{
    heal_bytes list = {0};
    (void)argv;
    return message(env, heal_side_close_list(&held->handle.side, &list), &list);
}
IN_TURN(close_list, side_type)

static term hear_list_body(ErlNifEnv *env, resource *held, const term argv[])
{
    ErlNifBinary list;
    if (!get_bytes(env, argv[1], &list))
        return enif_make_badarg(env);
    return done(env, heal_side_hear_list(&held->handle.side, list.data, list.size));
}
IN_TURN(hear_list, side_type)

static term finish_body(ErlNifEnv *env, resource *held, const term argv[])
{
    (void)argv;
    resource *made = new_resource(outcome_type);
    if (made == NULL)
        return refused(env, OUT_OF_MEMORY);
    return handed(env, heal_side_finish(&held->handle.side, &made->handle.outcome), 0, made);
}
IN_TURN(finish, side_type)

static term abandon_body(ErlNifEnv *env, resource *held, const term argv[])
{
    (void)argv;
    return done(env, heal_side_abandon(&held->handle.side));
}
IN_TURN(abandon, side_type)

static term events_body(ErlNifEnv *env, resource *held, const term argv[])
{
    size_t events = 0;
    (void)argv;
    uint32_t number = heal_side_events(&held->handle.side, &events);
    return number == 0 ? ok(env, enif_make_uint64(env, events)) : refused(env, number);
}
WITH_READERS(events, side_type)

/* The withdrawn names, the earliest first. */
static uint32_t withdrawn_names(ErlNifEnv *env, const heal_side *side, term *names)
{
    heal_name name;
    term reversed = enif_make_list(env, 0);
    uint32_t number;
    for (size_t i = 0; (number = heal_side_withdrawn(side, i, &name)) == 0; i++)
        reversed = enif_make_list_cell(env, name_term(env, &name), reversed);
    return number == HEAL_NO_ROW && enif_make_reverse_list(env, reversed, names) ? 0 : number;
}

static term missing_term(ErlNifEnv *env, const heal_side_state *state)
{
    switch (state->missing) {
    case HEAL_LACKS_OFFER:
        return atom_offer;
    case HEAL_LACKS_RULING:
        return enif_make_tuple2(env, atom_ruling, enif_make_uint64(env, state->missing_clash));
    case HEAL_LACKS_OWN_LIST:
        return atom_own_list;
    case HEAL_LACKS_LIST:
        return atom_list;
    default:
        return atom_nothing;
    }
}

static term query_body(ErlNifEnv *env, resource *held, const term argv[])
{
    heal_side_state state;
    term names;
    (void)argv;
    uint32_t number = heal_side_query(&held->handle.side, &state);
    if (number == 0)
        number = withdrawn_names(env, &held->handle.side, &names);
    if (number != 0)
        return refused(env, number);
    term keys[] = {atom_side, atom_open, atom_latest, atom_missing, atom_withdrawn};
    term values[] = {state.side == HEAL_A ? atom_a : atom_b,
        state.is_open ? enif_make_uint64(env, state.number) : atom_none,
        state.has_begun ? enif_make_uint64(env, state.latest) : atom_none,
        state.is_open ? missing_term(env, &state) : atom_none, names};
    return ok(env, map_of(env, keys, values, sizeof keys / sizeof *keys));
}
WITH_READERS(query, side_type)

static term renew_body(ErlNifEnv *env, resource *held, const term argv[])
{
    (void)argv;
    return done(env, heal_side_renew(&held->handle.side));
}
IN_TURN(renew, side_type)

static term give_up_body(ErlNifEnv *env, resource *held, const term argv[])
{
    (void)argv;
    return done(env, heal_side_give_up(&held->handle.side));
}
IN_TURN(give_up, side_type)

/* ---- Messages ---- */

static term peek(ErlNifEnv *env, int argc, const term argv[])
{
    ErlNifBinary bytes;
    heal_head head;
    (void)argc;
    if (!get_bytes(env, argv[0], &bytes))
        return enif_make_badarg(env);
    uint32_t number = heal_message_peek(bytes.data, bytes.size, &head);
    if (number != 0)
        return refused(env, number);
    term keys[] = {atom_kind, atom_side, atom_number, atom_seed};
    term values[] = {head.kind == HEAL_OFFER ? atom_offer : atom_list, head.side == HEAL_A ? atom_a : atom_b,
        enif_make_uint64(env, head.number), head.kind == HEAL_OFFER ? enif_make_uint64(env, head.seed) : atom_none};
    return ok(env, map_of(env, keys, values, sizeof keys / sizeof *keys));
}

/* ---- Outcomes ---- */

static term outcome_number_body(ErlNifEnv *env, resource *held, const term argv[])
{
    uint64_t of_exchange = 0;
    (void)argv;
    uint32_t number = heal_outcome_number(&held->handle.outcome, &of_exchange);
    return number == 0 ? ok(env, enif_make_uint64(env, of_exchange)) : refused(env, number);
}
READING(outcome_number, outcome_type)

static term merged_body(ErlNifEnv *env, resource *held, const term argv[])
{
    size_t names = 0;
    (void)argv;
    uint32_t number = heal_outcome_merged(&held->handle.outcome, &names);
    return number == 0 ? ok(env, enif_make_uint64(env, names)) : refused(env, number);
}
READING(merged, outcome_type)

static uint32_t notices_of(ErlNifEnv *env, const heal_outcome *outcome, size_t i, uint32_t count, term *notices)
{
    uint32_t number = 0;
    *notices = enif_make_list(env, 0);
    while (number == 0 && count > 0) {
        heal_notice notice;
        number = heal_outcome_notice(outcome, i, --count, &notice);
        if (number == 0)
            *notices = enif_make_list_cell(env, notice_term(env, &notice), *notices);
    }
    return number;
}

static uint32_t clash_of(ErlNifEnv *env, const heal_outcome *outcome, size_t i, term *clash)
{
    heal_clash read;
    term notices;
    uint32_t number = heal_outcome_clash(outcome, i, &read);
    if (number == 0)
        number = notices_of(env, outcome, i, read.notices, &notices);
    if (number != 0)
        return number;
    term keys[] = {atom_name, atom_first, atom_second, atom_word, atom_verdict, atom_keeps, atom_first_half, atom_notices};
    term values[] = {name_term(env, &read.name), registration_term(env, &read.first), registration_term(env, &read.second),
        enif_make_uint64(env, read.word), verdict_term(read.verdict), verdict_term(read.keeps),
        read.first_half == HEAL_A ? atom_a : atom_b, notices};
    *clash = map_of(env, keys, values, sizeof keys / sizeof *keys);
    return 0;
}

static term clashes_body(ErlNifEnv *env, resource *held, const term argv[])
{
    size_t count = 0;
    term clash, clashes = enif_make_list(env, 0);
    (void)argv;
    uint32_t number = heal_outcome_clashes(&held->handle.outcome, &count);
    while (number == 0 && count > 0) {
        number = clash_of(env, &held->handle.outcome, --count, &clash);
        if (number == 0)
            clashes = enif_make_list_cell(env, clash, clashes);
    }
    return number == 0 ? ok(env, clashes) : refused(env, number);
}
READING(clashes, outcome_type)

/* The clashes in short: {Name, First, Second, FirstHalf, Verdict, Resolver}. */
static term rulings_body(ErlNifEnv *env, resource *held, const term argv[])
{
    size_t count = 0;
    heal_clash read;
    term rulings = enif_make_list(env, 0);
    (void)argv;
    uint32_t number = heal_outcome_clashes(&held->handle.outcome, &count);
    while (number == 0 && count > 0) {
        number = heal_outcome_clash(&held->handle.outcome, --count, &read);
        if (number == 0)
            rulings = enif_make_list_cell(env, enif_make_tuple6(env, name_term(env, &read.name), owner_term(env, read.first.owner),
                owner_term(env, read.second.owner), read.first_half == HEAL_A ? atom_a : atom_b, verdict_term(read.verdict),
                resolver_kind(&read.first)), rulings);
    }
    return number == 0 ? ok(env, rulings) : refused(env, number);
}
READING(rulings, outcome_type)

/* {Name, Owner, Position, Verdict, Resolver, Winner} of a clash whose name the half doesn't keep; the half has the registration at this
   position. */
static term loss_term(ErlNifEnv *env, const heal_clash *from, bool has_first, alike *last)
{
    const heal_registration *own = has_first ? &from->first : &from->second, *other = has_first ? &from->second : &from->first;
    return enif_make_tuple6(env, name_term(env, &from->name), owner_term(env, own->owner), has_first ? atom_first : atom_second,
        verdict_term(from->verdict), resolver_kind(&from->first),
        from->keeps == HEAL_NEITHER ? atom_none : values_term(env, other, last));
}

/* The number of clashes, and what a half loses by them. */
static term losses_body(ErlNifEnv *env, resource *held, const term argv[])
{
    size_t count = 0;
    heal_clash read;
    alike last = {.is_known = false};
    term losses = enif_make_list(env, 0);
    bool is_a = enif_is_identical(argv[1], atom_a);
    if (!is_a && !enif_is_identical(argv[1], atom_b))
        return enif_make_badarg(env);
    uint32_t number = heal_outcome_clashes(&held->handle.outcome, &count);
    for (size_t i = count; number == 0 && i > 0; i--) {
        number = heal_outcome_clash(&held->handle.outcome, i - 1, &read);
        bool has_first = (read.first_half == HEAL_A) == is_a;
        if (number == 0 && read.keeps != (has_first ? HEAL_FIRST : HEAL_SECOND))
            losses = enif_make_list_cell(env, loss_term(env, &read, has_first, &last), losses);
    }
    return number == 0 ? enif_make_tuple3(env, atom_ok, enif_make_uint64(env, count), losses) : refused(env, number);
}
READING(losses, outcome_type)

/* ---- Replicas ---- */

static bool get_life(ErlNifEnv *env, term node, term incarnation, heal_life *to)
{
    memset(to, 0, sizeof *to);
    return get_u32(env, node, &to->node) && get_u64(env, incarnation, &to->incarnation);
}

static term replica(ErlNifEnv *env, int argc, const term argv[])
{
    heal_life life;
    (void)argc;
    if (!get_life(env, argv[0], argv[1], &life))
        return enif_make_badarg(env);
    resource *made = new_resource(replica_type);
    if (made == NULL)
        return refused(env, OUT_OF_MEMORY);
    return handed(env, heal_replica_start(&life, &made->handle.replica), 0, made);
}

/* {{Node, Incarnation}, View, Op} */
static term position_term(ErlNifEnv *env, const heal_position *at)
{
    term life = enif_make_tuple2(env, enif_make_uint(env, at->primary.node), enif_make_uint64(env, at->primary.incarnation));
    return enif_make_tuple3(env, life, enif_make_uint64(env, at->view), enif_make_uint64(env, at->op));
}

static bool get_position(ErlNifEnv *env, term from, heal_position *to)
{
    int arity, of_life;
    const term *words, *life;
    memset(to, 0, sizeof *to);
    return enif_get_tuple(env, from, &arity, &words) && arity == 3 && enif_get_tuple(env, words[0], &of_life, &life)
        && of_life == 2 && get_life(env, life[0], life[1], &to->primary) && get_u64(env, words[1], &to->view)
        && get_u64(env, words[2], &to->op);
}

static term replica_query_body(ErlNifEnv *env, resource *held, const term argv[])
{
    heal_replica_state state;
    (void)argv;
    uint32_t number = heal_replica_query(&held->handle.replica, &state);
    if (number != 0)
        return refused(env, number);
    term keys[] = {atom_at, atom_names, atom_limit, atom_latest, atom_is_primary};
    term values[] = {position_term(env, &state.at), enif_make_uint64(env, state.names), enif_make_uint64(env, state.limit),
        state.has_begun ? enif_make_uint64(env, state.latest) : atom_none, state.is_primary ? atom_true : atom_false};
    return ok(env, map_of(env, keys, values, sizeof keys / sizeof *keys));
}
WITH_READERS(replica_query, replica_type)

static term replica_register_body(ErlNifEnv *env, resource *held, const term argv[])
{
    ErlNifBinary name;
    heal_registration registration;
    heal_bytes entry = {0};
    if (!get_bytes(env, argv[1], &name) || !get_registration(env, argv[2], &registration))
        return enif_make_badarg(env);
    return message(env, heal_replica_register(&held->handle.replica, name.data, name.size, &registration, &entry), &entry);
}
IN_TURN(replica_register, replica_type)

static term replica_unregister_body(ErlNifEnv *env, resource *held, const term argv[])
{
    ErlNifBinary name;
    heal_bytes entry = {0};
    if (!get_bytes(env, argv[1], &name))
        return enif_make_badarg(env);
    return message(env, heal_replica_unregister(&held->handle.replica, name.data, name.size, &entry), &entry);
}
IN_TURN(replica_unregister, replica_type)

static term replica_upload_body(ErlNifEnv *env, resource *held, const term argv[])
{
    resource *program;
    heal_bytes entry = {0};
    if (!enif_get_resource(env, argv[1], program_type, (void **)&program))
        return enif_make_badarg(env);
    return message(env, heal_replica_upload(&held->handle.replica, &program->handle.program, &entry), &entry);
}
IN_TURN(replica_upload, replica_type)

static term replica_limit_body(ErlNifEnv *env, resource *held, const term argv[])
{
    uint64_t names;
    heal_bytes entry = {0};
    if (!get_u64(env, argv[1], &names))
        return enif_make_badarg(env);
    return message(env, heal_replica_limit(&held->handle.replica, names, &entry), &entry);
}
IN_TURN(replica_limit, replica_type)

static term replica_begin_body(ErlNifEnv *env, resource *held, const term argv[])
{
    uint64_t number;
    heal_bytes entry = {0};
    if (!get_u64(env, argv[1], &number))
        return enif_make_badarg(env);
    return message(env, heal_replica_begin(&held->handle.replica, number, &entry), &entry);
}
IN_TURN(replica_begin, replica_type)

static term replica_lead_body(ErlNifEnv *env, resource *held, const term argv[])
{
    (void)argv;
    return done(env, heal_replica_lead(&held->handle.replica));
}
IN_TURN(replica_lead, replica_type)

static term replica_snapshot_body(ErlNifEnv *env, resource *held, const term argv[])
{
    heal_bytes snapshot = {0};
    (void)argv;
    return message(env, heal_replica_snapshot(&held->handle.replica, &snapshot), &snapshot);
}
WITH_READERS(replica_snapshot, replica_type)

static term replica_follow_body(ErlNifEnv *env, resource *held, const term argv[])
{
    ErlNifBinary snapshot;
    if (!get_bytes(env, argv[1], &snapshot))
        return enif_make_badarg(env);
    return done(env, heal_replica_follow(&held->handle.replica, snapshot.data, snapshot.size));
}
IN_TURN(replica_follow, replica_type)

static term replica_apply_body(ErlNifEnv *env, resource *held, const term argv[])
{
    ErlNifBinary entry;
    if (!get_bytes(env, argv[1], &entry))
        return enif_make_badarg(env);
    return done(env, heal_replica_apply(&held->handle.replica, entry.data, entry.size));
}
IN_TURN(replica_apply, replica_type)

static term replica_whereis_body(ErlNifEnv *env, resource *held, const term argv[])
{
    ErlNifBinary name;
    heal_registration found;
    if (!get_bytes(env, argv[1], &name))
        return enif_make_badarg(env);
    uint32_t number = heal_replica_whereis(&held->handle.replica, name.data, name.size, &found);
    return number == 0 ? ok(env, registration_term(env, &found)) : refused(env, number);
}
WITH_READERS(replica_whereis, replica_type)

static term replica_rows_body(ErlNifEnv *env, resource *held, const term argv[])
{
    heal_row row;
    term reversed = enif_make_list(env, 0), rows;
    uint32_t number = heal_replica_row(&held->handle.replica, 0, &row);
    (void)argv;
    while (number == 0) {
        reversed = enif_make_list_cell(env, row_term(env, &row), reversed);
        number = heal_replica_row_after(&held->handle.replica, row.name.bytes, row.name.len, &row);
    }
    if (number != HEAL_NO_ROW || !enif_make_reverse_list(env, reversed, &rows))
        return refused(env, number);
    return ok(env, rows);
}
WITH_READERS(replica_rows, replica_type)

static term replica_side_body(ErlNifEnv *env, resource *held, const term argv[])
{
    bool second = enif_is_identical(argv[1], atom_b);
    if (!second && !enif_is_identical(argv[1], atom_a))
        return enif_make_badarg(env);
    resource *made = new_resource(side_type);
    if (made == NULL)
        return refused(env, OUT_OF_MEMORY);
    return handed(env, heal_replica_side(&held->handle.replica, second ? HEAL_B : HEAL_A, &made->handle.side), 0, made);
}
WITH_READERS(replica_side, replica_type)

/* The side is read meanwhile, so this also takes a turn on it. */
static term replica_change_body(ErlNifEnv *env, resource *held, const term argv[])
{
    heal_position from;
    resource *left;
    if (!get_position(env, argv[1], &from) || !enif_get_resource(env, argv[2], side_type, (void **)&left))
        return enif_make_badarg(env);
    if (!enter(env, left, true))
        return atom_busy;
    term result = done(env, heal_replica_change(&held->handle.replica, &from, &left->handle.side));
    leave(left, true);
    return result;
}
IN_TURN(replica_change, replica_type)

static term log_front(ErlNifEnv *env, int argc, const term argv[])
{
    ErlNifBinary log;
    heal_front front;
    (void)argc;
    if (!get_bytes(env, argv[0], &log))
        return enif_make_badarg(env);
    uint32_t number = heal_log_front(log.data, log.size, &front);
    if (number != 0)
        return refused(env, number);
    switch (front.kind) {
    case HEAL_LOG_END:
        return ok(env, atom_empty);
    case HEAL_LOG_CUT:
        return ok(env, atom_cut);
    default:
        return ok(env, enif_make_tuple2(env, front.kind == HEAL_ENTRY ? atom_entry : atom_snapshot,
            enif_make_uint64(env, front.size)));
    }
}

/* ---- Loading ---- */

/* Creates the type, or takes it over from the version of the module that is loaded: its resources stay valid. */
static bool open_type(ErlNifEnv *env, const char *name, ErlNifResourceDtor *dtor, ErlNifResourceType **type)
{
    *type = enif_open_resource_type(env, NULL, name, dtor, ERL_NIF_RT_CREATE | ERL_NIF_RT_TAKEOVER, NULL);
    return *type != NULL;
}

static int on_load(ErlNifEnv *env, void **private, term info)
{
    (void)private;
    (void)info;
#define MAKE(NAME) atom_##NAME = enif_make_atom(env, #NAME);
    ATOMS(MAKE)
    return open_type(env, "heal_program", free_program, &program_type) && open_type(env, "heal_side", free_side, &side_type)
        && open_type(env, "heal_outcome", free_outcome, &outcome_type)
        && open_type(env, "heal_replica", free_replica, &replica_type) ? 0 : 1;
}

static int on_upgrade(ErlNifEnv *env, void **private, void **old, term info)
{
    (void)old;
    return on_load(env, private, info);
}

#define DIRTY ERL_NIF_DIRTY_JOB_CPU_BOUND

static ErlNifFunc functions[] = {
    {"load", 1, load, DIRTY},
    {"judge", 2, judge, 0},
    {"program_id", 1, program_id, DIRTY},
    {"record", 6, record, 0},
    {"refusal_words", 1, refusal_words, 0},
    {"side", 2, side, 0},
    {"peek", 1, peek, 0},
    {"forget_in_turn", 2, forget, DIRTY},
    {"programs_in_turn", 1, programs, DIRTY},
    {"code_in_turn", 2, code, DIRTY},
    {"query_in_turn", 1, query, DIRTY},
    {"upload_in_turn", 2, upload, DIRTY},
    {"register_in_turn", 3, register_name, 0},
    {"register_all_in_turn", 2, register_all, DIRTY},
    {"unregister_in_turn", 2, unregister_name, 0},
    {"whereis_in_turn", 2, whereis_name, 0},
    {"count_in_turn", 1, count, 0},
    {"rows_in_turn", 1, rows, DIRTY},
    {"values_in_turn", 2, values, DIRTY},
    {"begin_exchange_in_turn", 4, begin, DIRTY},
    {"hear_in_turn", 2, hear, DIRTY},
    {"settle_in_turn", 1, settle, DIRTY},
    {"withdraw_in_turn", 2, withdraw, 0},
    {"close_list_in_turn", 1, close_list, DIRTY},
    {"hear_list_in_turn", 2, hear_list, DIRTY},
    {"finish_in_turn", 1, finish, DIRTY},
    {"abandon_in_turn", 1, abandon, DIRTY},
    {"events_in_turn", 1, events, 0},
    {"renew_in_turn", 1, renew, DIRTY},
    {"give_up_in_turn", 1, give_up, DIRTY},
    {"replica", 2, replica, 0},
    {"replica_query_in_turn", 1, replica_query, 0},
    {"replica_register_in_turn", 3, replica_register, 0},
    {"replica_unregister_in_turn", 2, replica_unregister, 0},
    {"replica_upload_in_turn", 2, replica_upload, DIRTY},
    {"replica_limit_in_turn", 2, replica_limit, 0},
    {"replica_begin_in_turn", 2, replica_begin, 0},
    {"replica_lead_in_turn", 1, replica_lead, 0},
    {"replica_snapshot_in_turn", 1, replica_snapshot, DIRTY},
    {"replica_follow_in_turn", 2, replica_follow, DIRTY},
    {"replica_apply_in_turn", 2, replica_apply, 0},
    {"replica_whereis_in_turn", 2, replica_whereis, 0},
    {"replica_rows_in_turn", 1, replica_rows, DIRTY},
    {"replica_side_in_turn", 2, replica_side, DIRTY},
    {"replica_change_in_turn", 3, replica_change, DIRTY},
    {"log_front", 1, log_front, 0},
    {"number", 1, outcome_number, 0},
    {"merged", 1, merged, 0},
    {"clashes", 1, clashes, DIRTY},
    {"rulings", 1, rulings, DIRTY},
    {"losses", 2, losses, DIRTY},
};

ERL_NIF_INIT(heal, functions, on_load, NULL, on_upgrade, NULL)
