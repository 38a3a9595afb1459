/*
 * The facility of Vuzhakkiram for callers in C and in every language that can call C.
 *
 * A facility keeps transactions that can share unfinished work, and the history of their steps with the replies. It is owned by a
 * `struct asset`, a handle of 16 bytes that the caller provides:
 *
 *     struct asset asset = ASSET_CLOSED_HANDLE;
 *     struct asset_object objects[] = {{.name = 1, .value = 100}};
 *     struct asset_step step = {.kind = ASSET_INITIATE, .first = 7};
 *     struct asset_answer answer;
 *     uint64_t twice;
 *     if (asset_open(&asset, objects, 1, 10000, &twice) != ASSET_DONE) ...
 *     if (asset_step(&asset, &step, &answer) != ASSET_DONE) ...
 *     asset_close(&asset);
 *
 * Every function returns a code. After every code but ASSET_DONE nothing has changed, and what a pointer was given for has its
 * old value; ASSET_DOUBLE_OBJECT alone writes, into `twice`. Every function may be called with any arguments: a closed handle,
 * an unknown kind, a list that is too long and a null pointer each get a code. The null pointers are looked at by this header,
 * and all else by the library.
 *
 * What a caller owes, because nothing can check it:
 *
 * - A handle is zeroed before its first use, its members are written by the library alone, and no copy of its bytes is used
 *   beside it. Each handle that is opened is closed.
 * - A pointer that is not null leads to a value of its type that nobody else reads or writes during the call, `objects` to as
 *   many as `object_count` says. Pointers of one call lead to different values.
 * - A handle stays on the thread that opened it. Different handles may be used on different threads.
 * - `malloc`, `realloc` and `free` are those of one allocator, and no function is called from a signal handler.
 */
#ifndef ASSET_H
#define ASSET_H

#include <stdbool.h>
#include <stddef.h>
#include <stdint.h>

#ifdef __cplusplus
extern "C" {
#endif

/* How a call went. */
enum {
    ASSET_DONE = 0,          /* The call did what it says. An answer that refuses or waits is done too. */
    ASSET_FULL = 1,          /* The history has no room for the entry with those that live transactions are owed. */
    ASSET_NO_MEMORY = 2,     /* Memory ran out. */
    ASSET_CLOSED = 3,        /* The handle is closed. */
    ASSET_IS_OPEN = 4,       /* The handle is open already. */
    ASSET_BAD_CAPACITY = 5,  /* The capacity is not from 1 to 1,000,000. */
    ASSET_DOUBLE_OBJECT = 6, /* An object is given twice. */
    ASSET_BAD_ARGUMENT = 7,  /* The step is none: its kind or detail is unknown, or its objects are none, more than 16, not all
                                different, or all objects of a permit to anybody. Or a pointer is null. */
    ASSET_ABSENT = 8         /* There is no such object, waiter, entry or group. */
};

/* What a step asks for. */
enum {
    ASSET_INITIATE = 1,  /* Registers transaction `first`; with detail ASSET_PARENT, with `second` as its parent. */
    ASSET_BEGIN = 2,     /* Starts `first`. */
    ASSET_READ = 3,      /* `first` reads object `second`. */
    ASSET_WRITE = 4,     /* `first` writes `value` to object `second`. */
    ASSET_COMPLETE = 5,  /* `first` has done its work. */
    ASSET_PERMIT = 6,    /* `first` lets `second` do what detail says on the objects, although it conflicts with its own. */
    ASSET_DELEGATE = 7,  /* `first` hands over to `second` what it did on the objects. */
    ASSET_DEPEND = 8,    /* Makes `second` depend on its source `first`; detail says how. */
    ASSET_COMMIT = 9,    /* Commits `first`, with all that group commits join to it. */
    ASSET_ABORT = 10,    /* Aborts `first`, with its class and all that depend on it by abort dependencies. */
    ASSET_WAIT_FOR = 11, /* Asks whether `first` has completed or ended. */
    ASSET_ADD = 12,      /* `first` adds `value` to object `second`; the sum wraps to 64 bits. */
    ASSET_PERMIT_ANY = 13 /* `first` lets anybody do what detail says on the listed objects, as long as `first` is live. */
};

/* The detail of an initiate: whether it names a parent. */
enum { ASSET_NO_PARENT = 0, ASSET_PARENT = 1 };

/* The detail of ASSET_PERMIT and ASSET_PERMIT_ANY: ASSET_TO_READ, ASSET_TO_WRITE, ASSET_TO_ADD, or a sum of different ones of these
   three. Also the operation that a waiter asked for, which is one of them. */
enum { ASSET_TO_READ = 1, ASSET_TO_WRITE = 2, ASSET_TO_READ_AND_WRITE = 3, ASSET_TO_ADD = 4 };

/* The detail of a dependency. */
enum { ASSET_COMMIT_DEPENDENCY = 1, ASSET_ABORT_DEPENDENCY = 2, ASSET_GROUP_COMMIT = 3 };

/* What an answer says. Those from ASSET_UNKNOWN on are refusals: they are recorded, and change nothing else. */
enum {
    ASSET_OK = 1,           /* Done. */
    ASSET_VALUE = 2,        /* `value` was read. */
    ASSET_COMMITTED = 3,    /* The transaction has committed. */
    ASSET_ABORTED = 4,      /* The transaction has aborted. */
    ASSET_WAIT = 5,         /* Not yet, and not recorded: ask again later. */
    ASSET_UNKNOWN = 16,     /* No transaction `name` was initiated. */
    ASSET_ENDED = 17,       /* Transaction `name` has ended. */
    ASSET_NOT_RUNNING = 18, /* Transaction `name` has not begun, or has completed. */
    ASSET_TAKEN = 19,       /* Transaction `name` was initiated before. */
    ASSET_BEGUN = 20,       /* Transaction `name` has begun before. */
    ASSET_NO_OBJECT = 21,   /* There is no object `name`. */
    ASSET_SAME = 22,        /* Two transactions that have to differ are one. */
    ASSET_CYCLE = 23,       /* The dependency would close a cycle. */
    ASSET_TOO_LATE = 24     /* Transaction `name` has committed, so it cannot be aborted. */
};

/* The status of a transaction. */
enum {
    ASSET_STATUS_UNKNOWN = 0,
    ASSET_STATUS_INITIATED = 1,
    ASSET_STATUS_RUNNING = 2,
    ASSET_STATUS_COMPLETED = 3,
    ASSET_STATUS_COMMITTED = 4,
    ASSET_STATUS_ABORTED = 5
};

/* The most objects that a step lists, and the count that stands for all objects. */
#define ASSET_SLOTS 16
#define ASSET_ALL UINT64_MAX

/* A handle. Zeroed, it is closed. Its members are the library's. */
struct asset {
    bool is_open;
    void *core;
};

#define ASSET_CLOSED_HANDLE {false, NULL}

/* An object with its opening value. */
struct asset_object {
    uint64_t name;
    int64_t value;
};

/* A step. Each kind uses the members that its line above names; the others may have any value. */
struct asset_step {
    uint32_t kind;
    uint32_t detail;
    uint64_t first;
    uint64_t second;
    int64_t value;
    uint64_t count; /* How many objects a permit or a delegation lists, from 1 to 16. ASSET_ALL stands for all, which a permit to anybody
                       cannot have. */
    uint64_t objects[ASSET_SLOTS]; /* The objects, all different, in any order. */
};

/* An answer. `name` is 0 unless its line above names it, and `value` is 0 unless it was read. */
struct asset_answer {
    uint32_t kind;
    uint64_t name;
    int64_t value;
};

/* A waiter of an object: the transaction, and what it asked to do: ASSET_TO_READ, ASSET_TO_WRITE or ASSET_TO_ADD. */
struct asset_waiter {
    uint64_t name;
    uint32_t op;
};

/*
 * Opens a facility over `object_count` objects, with room for `capacity` entries, and takes memory for all of them. `objects` may
 * be null if there are none.
 *
 * Answers ASSET_IS_OPEN if the handle is open; then ASSET_BAD_CAPACITY; then ASSET_DOUBLE_OBJECT, with the least object that is
 * given twice in `twice`. ASSET_NO_MEMORY may come before the last two are looked at.
 */
uint32_t asset_open(struct asset *asset, const struct asset_object *objects, size_t object_count, size_t capacity,
                    uint64_t *twice);

/*
 * Asks for a step, and writes its answer. An answer is recorded as the next entry of the history, unless it is ASSET_WAIT.
 *
 * Answers ASSET_CLOSED; ASSET_BAD_ARGUMENT if `step` asks for no step; ASSET_FULL exactly if the history has no room; and
 * ASSET_NO_MEMORY only for a step that would take effect and is no begin, complete, commit, abort or wait. A complete, a commit or
 * an abort that changes a status meets neither of the last two.
 */
uint32_t asset_step(struct asset *asset, const struct asset_step *step, struct asset_answer *answer);

/* Tells the status of a transaction. Answers ASSET_CLOSED. */
uint32_t asset_status(struct asset *asset, uint64_t transaction, uint32_t *status);

/* Tells the value of an object, with all that unfinished transactions wrote and added. Answers ASSET_CLOSED, and ASSET_ABSENT if
 * there is no such object. */
uint32_t asset_value(struct asset *asset, uint64_t object, int64_t *value);

/* Tells who waits for an object: the waiter at the index from 0, in order of initiation. Answers ASSET_CLOSED, and ASSET_ABSENT past
 * the end. */
uint32_t asset_waiter(struct asset *asset, uint64_t object, size_t index, struct asset_waiter *waiter);

/* Tells how many entries the history has. Answers ASSET_CLOSED. */
uint32_t asset_len(struct asset *asset, size_t *len);

/* Tells the entry at the index from 0, oldest first: a step that asks for the same, with its objects in rising order, and its
 * answer. Answers ASSET_CLOSED, and ASSET_ABSENT past the end. */
uint32_t asset_entry(struct asset *asset, size_t index, struct asset_step *step, struct asset_answer *answer);

/* Tells the number of the group of a transaction: those of one group shared something or asked to, directly or through others.
 * Groups are numbered from 0 in order of their first transactions. Goes over all transactions. Answers ASSET_CLOSED, ASSET_ABSENT
 * if no step acts on the transaction (to be named as a parent is not enough), and ASSET_NO_MEMORY. */
uint32_t asset_group_of(struct asset *asset, uint64_t transaction, size_t *group);

/* Closes the handle and frees all that it holds. Answers ASSET_CLOSED if it was closed already. */
uint32_t asset_close(struct asset *asset);

/* Below, each name stands for a function that answers ASSET_BAD_ARGUMENT to a null pointer and else calls the library's. */
#ifndef ASSET_UNCHECKED

static inline uint32_t asset_checked_open(struct asset *asset, const struct asset_object *objects, size_t object_count,
                                          size_t capacity, uint64_t *twice) {
    static const struct asset_object none = {0, 0};
    if (!asset || !twice || (!objects && object_count)) return ASSET_BAD_ARGUMENT;
    return asset_open(asset, objects ? objects : &none, object_count, capacity, twice);
}
static inline uint32_t asset_checked_step(struct asset *asset, const struct asset_step *step, struct asset_answer *answer) {
    return asset && step && answer ? asset_step(asset, step, answer) : (uint32_t)ASSET_BAD_ARGUMENT;
}
static inline uint32_t asset_checked_status(struct asset *asset, uint64_t transaction, uint32_t *status) {
    return asset && status ? asset_status(asset, transaction, status) : (uint32_t)ASSET_BAD_ARGUMENT;
}
static inline uint32_t asset_checked_value(struct asset *asset, uint64_t object, int64_t *value) {
    return asset && value ? asset_value(asset, object, value) : (uint32_t)ASSET_BAD_ARGUMENT;
}
static inline uint32_t asset_checked_waiter(struct asset *asset, uint64_t object, size_t index, struct asset_waiter *waiter) {
    return asset && waiter ? asset_waiter(asset, object, index, waiter) : (uint32_t)ASSET_BAD_ARGUMENT;
}
static inline uint32_t asset_checked_len(struct asset *asset, size_t *len) {
    return asset && len ? asset_len(asset, len) : (uint32_t)ASSET_BAD_ARGUMENT;
}
static inline uint32_t asset_checked_entry(struct asset *asset, size_t index, struct asset_step *step,
                                           struct asset_answer *answer) {
    return asset && step && answer ? asset_entry(asset, index, step, answer) : (uint32_t)ASSET_BAD_ARGUMENT;
}
static inline uint32_t asset_checked_group_of(struct asset *asset, uint64_t transaction, size_t *group) {
    return asset && group ? asset_group_of(asset, transaction, group) : (uint32_t)ASSET_BAD_ARGUMENT;
}
static inline uint32_t asset_checked_close(struct asset *asset) {
    return asset ? asset_close(asset) : (uint32_t)ASSET_BAD_ARGUMENT;
}

#define asset_open(...) asset_checked_open(__VA_ARGS__)
#define asset_step(...) asset_checked_step(__VA_ARGS__)
#define asset_status(...) asset_checked_status(__VA_ARGS__)
#define asset_value(...) asset_checked_value(__VA_ARGS__)
#define asset_waiter(...) asset_checked_waiter(__VA_ARGS__)
#define asset_len(...) asset_checked_len(__VA_ARGS__)
#define asset_entry(...) asset_checked_entry(__VA_ARGS__)
#define asset_group_of(...) asset_checked_group_of(__VA_ARGS__)
#define asset_close(...) asset_checked_close(__VA_ARGS__)

#endif

#ifdef __cplusplus
}
#endif

#endif
