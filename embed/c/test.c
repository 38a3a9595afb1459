/* Tests the header and the static library: all worked rows (whose file is the argument), wrong arguments, and a thousand
 * handles. Prints a line for each, and ends with status 0 if all holds. */
#include "asset.h"

#include <inttypes.h>
#include <stdio.h>
#include <stdlib.h>
#include <string.h>

#define MOST 64

static const char *row = "no row";

/* Ends the program unless the condition holds. */
#define EXPECT(condition)                                                                     \
    do {                                                                                      \
        if (!(condition)) {                                                                   \
            fprintf(stderr, "%s:%d: %s: not so: %s\n", __FILE__, __LINE__, row, #condition);   \
            exit(1);                                                                          \
        }                                                                                     \
    } while (0)

/* A keyword with its kind. */
struct keyword {
    const char *word;
    uint32_t kind;
};

static const struct keyword keywords[] = {
    {"initiate", ASSET_INITIATE}, {"begin", ASSET_BEGIN},       {"read", ASSET_READ},     {"write", ASSET_WRITE},
    {"complete", ASSET_COMPLETE}, {"permit", ASSET_PERMIT},     {"delegate", ASSET_DELEGATE}, {"depend", ASSET_DEPEND},
    {"commit", ASSET_COMMIT},     {"abort", ASSET_ABORT},       {"wait", ASSET_WAIT_FOR},
    {"add", ASSET_ADD},
};

static const char *const refusals[] = {"unknown", "ended", "not running", "taken", "begun", "no object", "same", "cycle", "too late"};

static uint64_t number(const char *word) { return strtoull(word, NULL, 10); }

/* Reads a set of objects: `all`, or numbers with commas between them. */
static void read_set(struct asset_step *step, char *word) {
    if (strcmp(word, "all") == 0) {
        step->count = ASSET_ALL;
        return;
    }
    for (char *part = word; part; part = strchr(part, ',')) {
        if (*part == ',') part++;
        EXPECT(step->count < ASSET_SLOTS);
        step->objects[step->count++] = number(part);
    }
}

/* Reads operations: letters of `rwa`. */
static uint32_t read_ops(const char *word) {
    return (strchr(word, 'r') ? ASSET_TO_READ : 0) + (strchr(word, 'w') ? ASSET_TO_WRITE : 0) + (strchr(word, 'a') ? ASSET_TO_ADD : 0);
}

/* Reads a kind of dependency: `cd`, `ad` or `gc`. */
static uint32_t read_tie(const char *word) {
    return word[0] == 'c' ? ASSET_COMMIT_DEPENDENCY : word[0] == 'a' ? ASSET_ABORT_DEPENDENCY : ASSET_GROUP_COMMIT;
}

/* Reads the words of a line after its keyword. */
static void read_operands(struct asset_step *step, char **words, int count) {
    step->first = number(words[1]);
    switch (step->kind) {
    case ASSET_INITIATE:
        step->detail = count == 3 ? ASSET_PARENT : ASSET_NO_PARENT;
        if (count == 3) step->second = number(words[2]);
        return;
    case ASSET_WRITE:
    case ASSET_ADD: step->value = strtoll(words[3], NULL, 10); /* and its object */ /* fall through */
    case ASSET_READ: step->second = number(words[2]); return;
    case ASSET_PERMIT:
        step->second = number(words[2]);
        step->detail = read_ops(words[3]);
        read_set(step, words[4]);
        return;
    case ASSET_PERMIT_ANY:
        step->detail = read_ops(words[3]);
        read_set(step, words[4]);
        return;
    case ASSET_DELEGATE:
        step->second = number(words[2]);
        read_set(step, words[3]);
        return;
    case ASSET_DEPEND:
        step->detail = read_tie(words[1]);
        step->first = number(words[2]);
        step->second = number(words[3]);
        return;
    default: return;
    }
}

/* Reads the line of a step. */
static struct asset_step read_step(char *line) {
    struct asset_step step = {.kind = 0};
    char *words[5];
    int count = 0;
    for (char *word = strtok(line, " "); word && count < 5; word = strtok(NULL, " ")) words[count++] = word;
    EXPECT(count >= 2);
    for (size_t i = 0; i < sizeof keywords / sizeof *keywords; i++)
        if (strcmp(words[0], keywords[i].word) == 0) step.kind = keywords[i].kind;
    EXPECT(step.kind != 0);
    if (step.kind == ASSET_PERMIT && strcmp(words[2], "any") == 0) step.kind = ASSET_PERMIT_ANY;
    read_operands(&step, words, count);
    return step;
}

/* Writes an answer as a script would print it. */
static void write_answer(const struct asset_answer *answer, char *text, size_t size) {
    static const char *const words[] = {"", "ok", "", "committed", "aborted", "wait"};
    if (answer->kind == ASSET_VALUE)
        snprintf(text, size, "%" PRId64, answer->value);
    else if (answer->kind == ASSET_SAME || answer->kind == ASSET_CYCLE)
        snprintf(text, size, "refused %s", refusals[answer->kind - ASSET_UNKNOWN]);
    else if (answer->kind >= ASSET_UNKNOWN)
        snprintf(text, size, "refused %s %" PRIu64, refusals[answer->kind - ASSET_UNKNOWN], answer->name);
    else
        snprintf(text, size, "%s", words[answer->kind]);
}

static int by_number(const void *a, const void *b) {
    uint64_t x = *(const uint64_t *)a, y = *(const uint64_t *)b;
    return (x > y) - (x < y);
}

/* The steps and replies of a row that the history has to have. */
struct recorded {
    struct asset_step steps[MOST];
    struct asset_answer answers[MOST];
    size_t count;
};

/* Reads the history back, and compares it with what was asked and answered. */
static void expect_entries(struct asset *asset, struct recorded *recorded) {
    size_t len;
    struct asset_step step;
    struct asset_answer answer;
    EXPECT(asset_len(asset, &len) == ASSET_DONE && len == recorded->count);
    for (size_t i = 0; i < len; i++) {
        struct asset_step *asked = &recorded->steps[i];
        if (asked->count <= ASSET_SLOTS) qsort(asked->objects, asked->count, sizeof *asked->objects, by_number);
        EXPECT(asset_entry(asset, i, &step, &answer) == ASSET_DONE);
        EXPECT(memcmp(&step, asked, sizeof step) == 0);
        EXPECT(answer.kind == recorded->answers[i].kind && answer.name == recorded->answers[i].name);
        EXPECT(answer.value == recorded->answers[i].value);
    }
    EXPECT(asset_entry(asset, len, &step, &answer) == ASSET_ABSENT);
}

/* Asks for the step of a line, and compares its reply. */
static void run_line(struct asset *asset, char *line, const char *reply, struct recorded *recorded) {
    struct asset_step step = read_step(line);
    struct asset_answer answer = {0, 0, 0};
    char text[64] = "full";
    uint32_t code = asset_step(asset, &step, &answer);
    EXPECT(code == ASSET_DONE || code == ASSET_FULL);
    if (code == ASSET_DONE) write_answer(&answer, text, sizeof text);
    if (strcmp(text, reply) != 0) {
        fprintf(stderr, "%s: got %s in place of %s\n", row, text, reply);
        exit(1);
    }
    if (code == ASSET_DONE && answer.kind != ASSET_WAIT) {
        EXPECT(recorded->count < MOST);
        recorded->steps[recorded->count] = step;
        recorded->answers[recorded->count++] = answer;
    }
}

/* Reads one line without its line feed. */
static bool next_line(FILE *file, char *line, size_t size) {
    if (!fgets(line, (int)size, file)) return false;
    line[strcspn(line, "\n")] = 0;
    return true;
}

/* Runs the row that begins with this line. */
static void run_row(FILE *file, char *first) {
    static char name[128], line[4200], reply[4200];
    struct asset asset = ASSET_CLOSED_HANDLE;
    struct asset_object objects[MOST];
    static struct recorded recorded;
    size_t object_count = 0, capacity;
    uint64_t twice;
    bool is_open = false;
    recorded.count = 0;
    EXPECT(sscanf(first, "row %127s %zu", name, &capacity) == 2);
    row = name;
    while (next_line(file, line, sizeof line) && strcmp(line, "end") != 0) {
        struct asset_object *object = &objects[object_count];
        if (sscanf(line, "object %" SCNu64 " %" SCNd64, &object->name, &object->value) == 2) {
            EXPECT(!is_open && ++object_count < MOST);
            continue;
        }
        if (!is_open) EXPECT(asset_open(&asset, objects, object_count, capacity, &twice) == ASSET_DONE);
        is_open = true;
        EXPECT(next_line(file, reply, sizeof reply) && strncmp(reply, "= ", 2) == 0);
        run_line(&asset, line, reply + 2, &recorded);
    }
    expect_entries(&asset, &recorded);
    EXPECT(asset_close(&asset) == ASSET_DONE);
}

static void all_rows(const char *path) {
    char line[4200];
    int rows = 0;
    FILE *file = fopen(path, "r");
    EXPECT(file != NULL);
    for (; next_line(file, line, sizeof line); rows++) run_row(file, line);
    fclose(file);
    row = "no row";
    EXPECT(rows >= 51);
    printf("C: %d rows\n", rows);
}

/* What a fault must leave as it was. */
static const struct asset_answer untouched = {77, 77, 77};

/* Expects the code for a step, that no entry is added, and that the answer is not written. */
static void expect_fault(struct asset *asset, struct asset_step step, uint32_t code) {
    struct asset_answer answer = untouched;
    size_t before = 0, after = 0;
    uint32_t open = asset_len(asset, &before);
    EXPECT(asset_step(asset, &step, &answer) == code);
    EXPECT(answer.kind == 77 && answer.name == 77 && answer.value == 77);
    EXPECT(asset_len(asset, &after) == open && after == before);
}

static void wrong_steps(struct asset *asset) {
    struct asset_step permit = {.kind = ASSET_PERMIT, .detail = ASSET_TO_READ, .first = 7, .second = 8, .count = 1, .objects = {1}};
    struct asset_step step = permit;
    const uint32_t kinds[] = {0, 14, 15, 99, 256 + ASSET_BEGIN, INT32_MAX, UINT32_MAX};
    for (size_t i = 0; i < sizeof kinds / sizeof *kinds; i++)
        expect_fault(asset, (struct asset_step){.kind = kinds[i], .first = 7}, ASSET_BAD_ARGUMENT);
    expect_fault(asset, (struct asset_step){.kind = ASSET_INITIATE, .detail = 2, .first = 9}, ASSET_BAD_ARGUMENT);
    expect_fault(asset, (struct asset_step){.kind = ASSET_DEPEND, .detail = 0, .first = 7, .second = 8}, ASSET_BAD_ARGUMENT);
    expect_fault(asset, (struct asset_step){.kind = ASSET_DEPEND, .detail = 4, .first = 7, .second = 8}, ASSET_BAD_ARGUMENT);
    step.detail = 0;
    expect_fault(asset, step, ASSET_BAD_ARGUMENT);
    step.detail = 8;
    expect_fault(asset, step, ASSET_BAD_ARGUMENT);
    const uint64_t counts[] = {0, 17, 18, 256 + 1, (uint64_t)1 << 32, ASSET_ALL - 1};
    for (size_t i = 0; i < sizeof counts / sizeof *counts; i++) {
        step = permit;
        step.count = counts[i];
        expect_fault(asset, step, ASSET_BAD_ARGUMENT);
        step.kind = ASSET_DELEGATE;
        expect_fault(asset, step, ASSET_BAD_ARGUMENT);
        step.kind = ASSET_PERMIT_ANY;
        expect_fault(asset, step, ASSET_BAD_ARGUMENT);
    }
    step = permit;
    step.kind = ASSET_PERMIT_ANY;
    step.count = ASSET_ALL;
    expect_fault(asset, step, ASSET_BAD_ARGUMENT);
    step = permit;
    step.count = 2;
    step.objects[1] = 1;
    expect_fault(asset, step, ASSET_BAD_ARGUMENT);
}

static void null_pointers(struct asset *asset) {
    struct asset_step step = {.kind = ASSET_BEGIN, .first = 7};
    struct asset_answer answer = untouched;
    uint64_t twice;
    size_t len;
    EXPECT(asset_open(NULL, NULL, 0, 10, &twice) == ASSET_BAD_ARGUMENT);
    EXPECT(asset_open(asset, NULL, 3, 10, &twice) == ASSET_BAD_ARGUMENT);
    EXPECT(asset_open(asset, NULL, 0, 10, NULL) == ASSET_BAD_ARGUMENT);
    EXPECT(asset_step(NULL, &step, &answer) == ASSET_BAD_ARGUMENT);
    EXPECT(asset_step(asset, NULL, &answer) == ASSET_BAD_ARGUMENT);
    EXPECT(asset_step(asset, &step, NULL) == ASSET_BAD_ARGUMENT);
    EXPECT(asset_status(asset, 7, NULL) == ASSET_BAD_ARGUMENT && asset_value(asset, 1, NULL) == ASSET_BAD_ARGUMENT);
    EXPECT(asset_waiter(asset, 1, 0, NULL) == ASSET_BAD_ARGUMENT && asset_len(asset, NULL) == ASSET_BAD_ARGUMENT);
    EXPECT(asset_entry(asset, 0, NULL, &answer) == ASSET_BAD_ARGUMENT && asset_group_of(asset, 7, NULL) == ASSET_BAD_ARGUMENT);
    EXPECT(asset_close(NULL) == ASSET_BAD_ARGUMENT && asset_len(asset, &len) == ASSET_DONE);
}

static void closed_handle(void) {
    struct asset asset = ASSET_CLOSED_HANDLE;
    struct asset_waiter waiter = {77, 77};
    struct asset_step step = {.kind = 77};
    struct asset_answer answer = untouched;
    uint32_t status = 77;
    int64_t value = 77;
    size_t len = 77, group = 77;
    expect_fault(&asset, (struct asset_step){.kind = ASSET_INITIATE, .first = 7}, ASSET_CLOSED);
    expect_fault(&asset, (struct asset_step){.kind = 99}, ASSET_CLOSED);
    EXPECT(asset_status(&asset, 7, &status) == ASSET_CLOSED && status == 77);
    EXPECT(asset_value(&asset, 1, &value) == ASSET_CLOSED && value == 77);
    EXPECT(asset_waiter(&asset, 1, 0, &waiter) == ASSET_CLOSED && waiter.name == 77 && waiter.op == 77);
    EXPECT(asset_len(&asset, &len) == ASSET_CLOSED && len == 77);
    EXPECT(asset_entry(&asset, 0, &step, &answer) == ASSET_CLOSED && step.kind == 77 && answer.kind == 77);
    EXPECT(asset_group_of(&asset, 7, &group) == ASSET_CLOSED && group == 77);
    EXPECT(asset_close(&asset) == ASSET_CLOSED && !asset.is_open);
}

static void wrong_openings(void) {
    struct asset asset = ASSET_CLOSED_HANDLE;
    const struct asset_object objects[] = {{1, 1}, {5, 2}, {3, 3}, {5, 4}, {3, 5}};
    uint64_t twice = 77;
    size_t len;
    EXPECT(asset_open(&asset, objects, 5, 0, &twice) == ASSET_BAD_CAPACITY && twice == 77);
    EXPECT(asset_open(&asset, objects, 5, 1000001, &twice) == ASSET_BAD_CAPACITY && twice == 77);
    EXPECT(asset_open(&asset, objects, 5, 10, &twice) == ASSET_DOUBLE_OBJECT && twice == 3);
    EXPECT(asset_len(&asset, &len) == ASSET_CLOSED);
    EXPECT(asset_open(&asset, NULL, 0, 10, &twice) == ASSET_DONE && asset_len(&asset, &len) == ASSET_DONE && len == 0);
    EXPECT(asset_open(&asset, objects, 1, 10, &twice) == ASSET_IS_OPEN && asset_close(&asset) == ASSET_DONE);
}

static uint32_t begin(struct asset *asset, uint64_t transaction) {
    struct asset_answer answer;
    asset_step(asset, &(struct asset_step){.kind = ASSET_INITIATE, .first = transaction}, &answer);
    asset_step(asset, &(struct asset_step){.kind = ASSET_BEGIN, .first = transaction}, &answer);
    return answer.kind;
}

/* The questions about an open handle: statuses, values, waiters and groups. */
static void questions(struct asset *asset) {
    struct asset_answer answer;
    struct asset_waiter waiter = {77, 77};
    uint32_t status;
    int64_t value;
    size_t group = 77;
    EXPECT(begin(asset, 7) == ASSET_OK && begin(asset, 8) == ASSET_OK && begin(asset, 9) == ASSET_OK);
    asset_step(asset, &(struct asset_step){.kind = ASSET_WRITE, .first = 7, .second = 1, .value = -5}, &answer);
    asset_step(asset, &(struct asset_step){.kind = ASSET_WRITE, .first = 8, .second = 1, .value = 6}, &answer);
    EXPECT(answer.kind == ASSET_WAIT);
    EXPECT(asset_waiter(asset, 1, 0, &waiter) == ASSET_DONE && waiter.name == 8 && waiter.op == ASSET_TO_WRITE);
    EXPECT(asset_waiter(asset, 1, 1, &waiter) == ASSET_ABSENT && waiter.name == 8);
    EXPECT(asset_value(asset, 1, &value) == ASSET_DONE && value == -5);
    EXPECT(asset_value(asset, 4, &value) == ASSET_ABSENT && value == -5);
    EXPECT(asset_status(asset, 7, &status) == ASSET_DONE && status == ASSET_STATUS_RUNNING);
    EXPECT(asset_status(asset, 6, &status) == ASSET_DONE && status == ASSET_STATUS_UNKNOWN);
    asset_step(asset, &(struct asset_step){.kind = ASSET_PERMIT, .detail = 1, .first = 9, .second = 8, .count = ASSET_ALL}, &answer);
    EXPECT(answer.kind == ASSET_OK);
    EXPECT(asset_group_of(asset, 7, &group) == ASSET_DONE && group == 0);
    EXPECT(asset_group_of(asset, 9, &group) == ASSET_DONE && group == 1);
    EXPECT(asset_group_of(asset, 8, &group) == ASSET_DONE && group == 1);
    EXPECT(asset_group_of(asset, 6, &group) == ASSET_ABSENT && group == 1);
}

static void wrong_arguments(void) {
    struct asset asset = ASSET_CLOSED_HANDLE;
    const struct asset_object objects[] = {{1, 100}, {2, 200}};
    uint64_t twice;
    closed_handle();
    wrong_openings();
    EXPECT(asset_open(&asset, objects, 2, 100, &twice) == ASSET_DONE);
    questions(&asset);
    wrong_steps(&asset);
    null_pointers(&asset);
    EXPECT(asset_close(&asset) == ASSET_DONE && asset_close(&asset) == ASSET_CLOSED);
    puts("C: wrong arguments");
}

/* A thousand handles that are open at once. */
static void thousand_handles(void) {
    static struct asset assets[1000];
    const struct asset_object objects[] = {{1, 100}, {2, 200}};
    uint64_t twice;
    int64_t value;
    struct asset_answer answer;
    for (int i = 0; i < 1000; i++) {
        EXPECT(asset_open(&assets[i], objects, 2, 10, &twice) == ASSET_DONE && begin(&assets[i], 7) == ASSET_OK);
        asset_step(&assets[i], &(struct asset_step){.kind = ASSET_WRITE, .first = 7, .second = 1, .value = i}, &answer);
    }
    for (int i = 999; i >= 0; i--) {
        EXPECT(asset_value(&assets[i], 1, &value) == ASSET_DONE && value == i);
        EXPECT(asset_close(&assets[i]) == ASSET_DONE && asset_close(&assets[i]) == ASSET_CLOSED);
    }
    puts("C: 1000 handles");
}

int main(int count, char **arguments) {
    EXPECT(count == 2 && sizeof(struct asset) == 16);
    all_rows(arguments[1]);
    wrong_arguments();
    thousand_handles();
    return 0;
}
