/* A design task is handed from one worker to another, and the first then gives up: `examples/delegation.asset` as calls. Prints the
 * answers of the steps that tell most, and ends with status 0. */
#include "asset.h"

#include <inttypes.h>
#include <stdio.h>
#include <stdlib.h>

static struct asset asset = ASSET_CLOSED_HANDLE;

/* Asks for a step, and ends the program if it meets a fault. */
static struct asset_answer ask(struct asset_step step) {
    struct asset_answer answer;
    uint32_t code = asset_step(&asset, &step, &answer);
    if (code != ASSET_DONE) {
        fprintf(stderr, "step of kind %" PRIu32 ": code %" PRIu32 "\n", step.kind, code);
        exit(1);
    }
    return answer;
}

static struct asset_answer on_one(uint32_t kind, uint64_t transaction) {
    return ask((struct asset_step){.kind = kind, .first = transaction});
}

static struct asset_answer write_to(uint64_t transaction, uint64_t object, int64_t value) {
    return ask((struct asset_step){.kind = ASSET_WRITE, .first = transaction, .second = object, .value = value});
}

/* Reads, and prints the value or that the reader has to wait. */
static void show(uint64_t transaction, uint64_t object) {
    struct asset_answer answer = ask((struct asset_step){.kind = ASSET_READ, .first = transaction, .second = object});
    if (answer.kind == ASSET_VALUE)
        printf("%" PRIu64 " reads %" PRId64 " from object %" PRIu64 "\n", transaction, answer.value, object);
    else
        printf("%" PRIu64 " waits for object %" PRIu64 "\n", transaction, object);
}

int main(void) {
    const struct asset_object parts[] = {{.name = 1, .value = 100}, {.name = 2, .value = 200}};
    uint64_t twice;
    if (asset_open(&asset, parts, 2, 10000, &twice) != ASSET_DONE) return 1;
    for (uint64_t worker = 7; worker <= 9; worker++) {
        on_one(ASSET_INITIATE, worker);
        on_one(ASSET_BEGIN, worker);
    }

    /* 7 works on both parts, and lets the reviewer 9 read part 1. */
    write_to(7, 1, 50);
    write_to(7, 2, 60);
    ask((struct asset_step){.kind = ASSET_PERMIT, .detail = ASSET_TO_READ, .first = 7, .second = 9, .count = 1, .objects = {1}});

    /* 7 hands part 1 over to 8, which is responsible for it from then on. The reviewer may still read it. */
    ask((struct asset_step){.kind = ASSET_DELEGATE, .first = 7, .second = 8, .count = 1, .objects = {1}});
    show(7, 1);
    show(9, 1);
    on_one(ASSET_COMPLETE, 9);
    on_one(ASSET_COMMIT, 9);

    /* The abort of 7 takes back its write of part 2, and leaves part 1 alone. */
    on_one(ASSET_ABORT, 7);
    show(8, 1);
    show(8, 2);

    /* 8 finishes part 1, and its commit makes that stand. */
    write_to(8, 1, 55);
    on_one(ASSET_COMPLETE, 8);
    on_one(ASSET_COMMIT, 8);
    int64_t value;
    if (asset_value(&asset, 1, &value) != ASSET_DONE) return 1;
    printf("object 1 has %" PRId64 "\n", value);
    return asset_close(&asset) == ASSET_DONE ? 0 : 1;
}
