/* Measures steps and questions through the static library, with the load `core` of `asset_load`: each transaction in turn is
 * initiated, begins, writes and reads one object, completes and commits. */
#define _POSIX_C_SOURCE 199309L

#include "asset.h"

#include <stdio.h>
#include <time.h>

#define TRANSACTIONS 166666
#define STEPS (TRANSACTIONS * 6)
#define ROUNDS 7

static double now(void) {
    struct timespec at;
    clock_gettime(CLOCK_MONOTONIC, &at);
    return (double)at.tv_sec * 1e9 + (double)at.tv_nsec;
}

/* The six steps of a transaction. */
static struct asset_step steps[6] = {
    {.kind = ASSET_INITIATE},
    {.kind = ASSET_BEGIN},
    {.kind = ASSET_WRITE, .second = 1, .value = 50},
    {.kind = ASSET_READ, .second = 1},
    {.kind = ASSET_COMPLETE},
    {.kind = ASSET_COMMIT},
};

/* Asks for the steps of a transaction, and returns whether one met a fault or did not end well. */
static uint32_t run(struct asset *asset, uint64_t t) {
    struct asset_answer answer;
    uint32_t wrong = 0;
    for (int k = 0; k < 6; k++) {
        steps[k].first = t;
        wrong |= asset_step(asset, &steps[k], &answer);
    }
    return wrong | (answer.kind != ASSET_COMMITTED);
}

int main(void) {
    const struct asset_object objects[] = {{1, 1}, {2, 2}, {3, 3}, {4, 4}};
    struct asset asset = ASSET_CLOSED_HANDLE;
    uint64_t twice;
    uint32_t wrong = 0, status;
    double best_step = 1e9, best_status = 1e9;
    for (int round = 0; round < ROUNDS; round++) {
        wrong |= asset_open(&asset, objects, 4, 1000000, &twice);
        double start = now();
        for (uint64_t t = 0; t < TRANSACTIONS; t++) wrong |= run(&asset, t);
        double middle = now();
        for (uint64_t i = 0; i < STEPS; i++) wrong |= asset_status(&asset, i % TRANSACTIONS, &status);
        double end = now();
        wrong |= asset_close(&asset);
        if ((middle - start) / STEPS < best_step) best_step = (middle - start) / STEPS;
        if ((end - middle) / STEPS < best_status) best_status = (end - middle) / STEPS;
    }
    printf("C: %.1f ns a step, %.1f ns a status%s\n", best_step, best_status, wrong ? " (a call met a fault)" : "");
    return wrong != 0;
}
