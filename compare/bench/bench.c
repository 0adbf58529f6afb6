/*
 * Ours, plain C and plain Rust beside each other: `bench check` holds their answers together, `bench time` tells nanoseconds, `bench run` runs
 * one case of one side for instructions to be counted in, and `bench stack` tells how deep our calls go.
 */
#include "plain.h"

#include <pthread.h>
#include <stdio.h>
#include <stdlib.h>
#include <string.h>
#include <time.h>

enum { SIDES = 3, MOST_NUMBERS = AWDL_SYNCHRONIZATION_NUMBERS, ROUNDS = 61 };

/* Every call goes through these pointers, so that nothing is inlined into the driver on any side. */
struct side {
#define POINTER(call) __typeof__(plain_##call) *call;
#define EACH_CALL(do)                                                                                                                   \
    do(frame_read) do(step) do(first_data_path) do(next_data_path) do(first_synchronization) do(next_synchronization)                   \
    do(first_channel_sequence) do(next_channel_sequence) do(data_path_read) do(data_path_write) do(synchronization_read)                \
    do(synchronization_write) do(channel_sequence_read) do(channel_sequence_write) do(sequence_read) do(sequence_write) do(judge)
    EACH_CALL(POINTER)
};

#define OURS(call) awdl_##call,
#define PLAIN(call) plain_##call,
/* compare/archives has no Rust for a machine that is not at hand. There plain C stands in its place. */
#ifdef NO_RUST
#define RUST(call) plain_##call,
#else
#define RUST(call) rust_##call,
#endif
static const struct side sides[SIDES] = {{EACH_CALL(OURS)}, {EACH_CALL(PLAIN)}, {EACH_CALL(RUST)}};
static const char *const side_names[SIDES] = {"ours", "plain C", "plain Rust"};

static void fail(const char *why)
{
    fprintf(stderr, "bench: %s\n", why);
    exit(1);
}

/* The inputs of the cases. */

struct bytes {
    uint8_t bytes[4096];
    size_t length;
};

static struct bytes few, many, data_path, synchronization, channel_sequence, lent_few, lent_many;
static uint32_t data_path_record[AWDL_DATA_PATH_NUMBERS], synchronization_record[AWDL_SYNCHRONIZATION_NUMBERS];
static uint32_t channel_sequence_record[AWDL_CHANNEL_SEQUENCE_NUMBERS];
static const uint32_t *const sequence_record = channel_sequence_record + AWDL_CHANNEL_SEQUENCE_ENCODING;
static const uint8_t permitted_few[] = {44, 6, 149}, permitted_many[] = {36, 40, 44, 48, 52, 56, 60, 64, 100, 104, 108, 112, 116, 149, 153, 6};

static void add(struct bytes *to, const uint8_t *bytes, size_t n)
{
    memcpy(to->bytes + to->length, bytes, n);
    to->length += n;
}

static void add_item(struct bytes *to, uint8_t type, const uint8_t *value, size_t n)
{
    add(to, (uint8_t[]){type, n, n >> 8}, 3);
    add(to, value, n);
}

static size_t count_items(const struct bytes *frame)
{
    size_t step[AWDL_STEP_NUMBERS] = {0}, items = 0;
    while (plain_step(frame->bytes + AWDL_HEADER_SIZE, frame->length - AWDL_HEADER_SIZE, step[AWDL_STEP_NEXT], step) == AWDL_ITEM)
        items++;
    return items;
}

static void make_inputs(void)
{
    static const uint8_t header[] = {0x08, 0x10, 3, 0, 0, 1, 0, 0, 16, 0, 0, 0}, value[200] = {0};
    static const uint8_t full[] = {
        0x07, 0x93, 'D', 'E', 0, 0x24, 0, 2, 4, 6, 8, 10, 12, 44, 0, 2, 5, 8, 11, 14, 17, 2, 6, 10, 14, 18, 22, 8, 0, 2, 8, 1, 0, 1, 2, 3, 4,
        0x25, 0x01, 7, 1, 9, 8, 7, 6, 1, 0, 0, 0, 2, 0, 0, 0, 3, 0, 0, 0};
    static const uint8_t six[] = {15, 3, 0, 3, 0, 0};
    add(&data_path, full, sizeof full);
    add(&channel_sequence, six, sizeof six);
    for (uint8_t i = 0; i < 16; i++)
        add(&channel_sequence, (uint8_t[]){36 + 4 * (i % 4), 81}, 2);
    for (uint8_t i = 0; i < 33; i++)
        add(&synchronization, &i, 1);
    add(&synchronization, channel_sequence.bytes, channel_sequence.length);

    add(&few, header, sizeof header);
    add_item(&few, 21, value, 2);
    add_item(&few, 4, synchronization.bytes, synchronization.length);
    add_item(&few, 5, value, 21);
    add_item(&few, 24, value, 40);
    add_item(&few, 18, channel_sequence.bytes, channel_sequence.length);
    add_item(&few, 2, value, 35);
    add_item(&few, 2, value, 120);
    add_item(&few, 16, value, 12);
    add_item(&few, 7, value, 8);
    add_item(&few, 17, value, 26);
    add_item(&few, 20, value, 6);
    add_item(&few, 12, data_path.bytes, data_path.length);
    add(&many, header, sizeof header);
    while (many.length + 3 <= sizeof many.bytes)
        add_item(&many, 5, value, 0);

    for (uint8_t i = 0; i < 64; i++) {
        uint8_t lent[33] = {(const uint8_t[]){0, 1, 3}[i % 3]};
        for (uint8_t k = 0; k < 32; k++)
            lent[1 + k] = permitted_many[(i + k) % 15] + (i % 3 == 1 && k % 2 == 0 ? k % 3 : 0);
        add(&lent_many, lent, sizeof lent);
    }
    add(&lent_few, (const uint8_t[]){3}, 1);
    add(&lent_few, channel_sequence.bytes + 6, 32);

    size_t offset, size;
    if (plain_data_path_read(data_path.bytes, data_path.length, &offset, &size, data_path_record) || size != 57
        || plain_synchronization_read(synchronization.bytes, synchronization.length, &offset, &size, synchronization_record) || size != 71
        || plain_channel_sequence_read(channel_sequence.bytes, channel_sequence.length, 0, &offset, &size, channel_sequence_record) || size != 38
        || count_items(&few) != 12 || count_items(&many) != 1361)
        fail("the inputs of the cases are not what they should be");
}

/* The cases. Each is a loop of its own; what a call answers lies in one of these, as it would in a caller's own memory. */

static size_t offset, size, numbers[AWDL_STEP_NUMBERS];
static uint32_t record[MOST_NUMBERS], own, found;
static uint8_t buffer[80];

#define CASE(name, ...)                                  \
    static void case_##name(const struct side *s, size_t n) \
    {                                                    \
        for (size_t i = 0; i < n; i++) {                 \
            __VA_ARGS__                                  \
        }                                                \
    }

static inline void walk(const struct side *s, const struct bytes *frame)
{
    const uint8_t *tail = frame->bytes + AWDL_HEADER_SIZE;
    size_t length = frame->length - AWDL_HEADER_SIZE, at = 0;
    found = s->frame_read(frame->bytes, frame->length, &offset, &size, record);
    while (s->step(tail, length, at, numbers) == AWDL_ITEM)
        at = numbers[AWDL_STEP_NEXT];
}

#define FEW_TAIL few.bytes + AWDL_HEADER_SIZE, few.length - AWDL_HEADER_SIZE

CASE(walk_few, walk(s, &few);)
CASE(walk_many, walk(s, &many);)
CASE(search_first, found = s->first_data_path(FEW_TAIL, numbers, record);)
CASE(search_all, size_t at = 0; while (s->next_data_path(FEW_TAIL, at, numbers, record)) at = numbers[AWDL_FOUND_NEXT];)

#define RECORD_CASES(type, READ)                                                          \
    CASE(type##_read, READ)                                                               \
    CASE(type##_write, found = s->type##_write(type##_record, buffer, sizeof buffer, &size);) \
    CASE(type##_again, READ found = s->type##_write(record, buffer, sizeof buffer, &size);)

RECORD_CASES(data_path, found = s->data_path_read(data_path.bytes, data_path.length, &offset, &size, record);)
RECORD_CASES(synchronization, found = s->synchronization_read(synchronization.bytes, synchronization.length, &offset, &size, record);)
RECORD_CASES(channel_sequence, found = s->channel_sequence_read(channel_sequence.bytes, channel_sequence.length, 0, &offset, &size, record);)
RECORD_CASES(sequence, found = s->sequence_read(channel_sequence.bytes, channel_sequence.length, 6, 3, &offset, &size, record);)

#define JUDGE(lent, permitted, proposal) found = s->judge(lent.bytes, lent.length, permitted, sizeof permitted, proposal, &offset, &own);
CASE(judge_few, JUDGE(lent_few, permitted_few, 149))
CASE(judge_many, JUDGE(lent_many, permitted_many, 6))

static const struct {
    const char *name;
    void (*run)(const struct side *s, size_t n);
} cases[] = {
    {"header and walk, 12 items", case_walk_few},
    {"header and walk, 1,361 items", case_walk_many},
    {"search: first data path, last of 12 items", case_search_first},
    {"search: next until nothing, 12 items", case_search_all},
    {"data path, 57 bytes: read", case_data_path_read},
    {"data path: write", case_data_path_write},
    {"data path: read and write again", case_data_path_again},
    {"synchronization, 71 bytes: read", case_synchronization_read},
    {"synchronization: write", case_synchronization_write},
    {"synchronization: read and write again", case_synchronization_again},
    {"channel sequence, 38 bytes: read", case_channel_sequence_read},
    {"channel sequence: write", case_channel_sequence_write},
    {"channel sequence: read and write again", case_channel_sequence_again},
    {"sequence, 32 bytes: read", case_sequence_read},
    {"sequence: write", case_sequence_write},
    {"sequence: read and write again", case_sequence_again},
    {"judge, 1 sequence, 3 permitted", case_judge_few},
    {"judge, 64 sequences, 16 permitted", case_judge_many},
};
enum { CASES = sizeof cases / sizeof *cases };

/* Varied inputs: what the cases have, cut and damaged. One input is asked of every call that can be asked of it. */

struct input {
    uint8_t bytes[66 * 33], permitted[18];
    size_t length, at, permitted_length, room;
    uint32_t encoding, proposal, record[MOST_NUMBERS];
};

static uint32_t random_below(uint32_t n)
{
    static uint64_t state = 0x9E3779B97F4A7C15;
    state ^= state << 13;
    state ^= state >> 7;
    state ^= state << 17;
    return (state >> 32) % n;
}

static void vary_sequences(struct input *in)
{
    static const uint8_t encodings[] = {0, 1, 3};
    in->length = 33 * random_below(67);
    uint32_t channels = 1 + random_below(250);
    for (size_t i = 0; i < in->length; i++)
        in->bytes[i] = i % 33 ? random_below(channels) : encodings[random_below(3)];
    if (random_below(8) == 0)
        in->length -= in->length ? random_below(33) : 0;
    if (in->length && random_below(8) == 0)
        in->bytes[33 * random_below((in->length + 32) / 33)] = random_below(256);
    in->permitted_length = random_below(sizeof in->permitted + 1);
    for (size_t i = 0; i < in->permitted_length; i++)
        in->permitted[i] = random_below(channels);
    in->proposal = in->permitted_length && random_below(8) ? in->permitted[random_below(in->permitted_length)] : random_below(260);
}

static void vary_bytes(struct input *in)
{
    static const struct bytes *const from[] = {&few, &data_path, &synchronization, &channel_sequence};
    uint32_t which = random_below(4);
    memcpy(in->bytes, from[which]->bytes, in->length = from[which]->length);
    if (which == 0 && random_below(2))
        memmove(in->bytes, in->bytes + AWDL_HEADER_SIZE, in->length -= AWDL_HEADER_SIZE);
    /* The first bytes say what stands behind them, and so does byte 33 of a synchronization record. */
    for (uint32_t damage = random_below(4); damage > 0; damage--)
        in->bytes[random_below(2) ? random_below(4) : random_below(in->length)] = random_below(2) ? random_below(5) : random_below(256);
    if (random_below(2))
        in->length = random_below(in->length + 1);
    in->permitted_length = 0;
    in->proposal = 0;
}

static void vary_record(struct input *in)
{
    static const uint32_t edges[] = {0, 1, 2, 7, 8, 254, 255, 256, 65535, 65536, 0xFFFFFFFF};
    uint8_t wild[128];
    size_t at, n;
    uint32_t which = random_below(4);
    for (size_t i = 0; i < sizeof wild; i++)
        wild[i] = random_below(256);
    memset(in->record, 0, sizeof in->record);
    if (which == 0) {
        plain_data_path_read(wild, sizeof wild, &at, &n, in->record);
    } else {
        uint32_t *sequence = which == 1 ? in->record : which == 2 ? in->record + 3 : in->record + 27;
        for (uint32_t *number = in->record; number < sequence + AWDL_SEQUENCE_NUMBERS; number++)
            *number = wild[number - in->record];
        sequence[0] = random_below(5);
        if (sequence[0] == 0 && random_below(4))
            memset(sequence + 17, 0, 16 * sizeof *sequence);
    }
    for (uint32_t damage = random_below(3); damage > 0; damage--)
        in->record[random_below(MOST_NUMBERS)] = random_below(2) ? edges[random_below(11)] : random_below(1 << 18);
    in->room = random_below(2) ? 80 : random_below(80);
}

static void vary(struct input *in)
{
    if (random_below(3) == 0)
        vary_sequences(in);
    else
        vary_bytes(in);
    vary_record(in);
    in->at = random_below(3) ? 0 : random_below(in->length + 4);
    in->encoding = random_below(16) ? random_below(5) : random_below(600);
}

struct answer {
    size_t offset, size, numbers[AWDL_STEP_NUMBERS];
    uint32_t said, own, record[MOST_NUMBERS];
    uint8_t buffer[80];
};
enum { ANSWERS = 17 };
static const char *const answer_names[ANSWERS] = {
#define NAME(call) #call,
    EACH_CALL(NAME)
};

static void ask(const struct side *s, const struct input *in, struct answer answers[ANSWERS])
{
    const uint8_t *bytes = in->bytes;
    size_t length = in->length, at = in->at;
    memset(answers, 0xEE, ANSWERS * sizeof *answers);
    struct answer *a = answers;
#define ASK(call, ...) a->said = s->call(__VA_ARGS__), a++
#define ASK_WRITE(call) ASK(call, in->record, a->buffer, in->room, &a->size)
    ASK(frame_read, bytes, length, &a->offset, &a->size, a->record);
    ASK(step, bytes, length, at, a->numbers);
    ASK(first_data_path, bytes, length, a->numbers, a->record);
    ASK(next_data_path, bytes, length, at, a->numbers, a->record);
    ASK(first_synchronization, bytes, length, a->numbers, a->record);
    ASK(next_synchronization, bytes, length, at, a->numbers, a->record);
    ASK(first_channel_sequence, bytes, length, a->numbers, a->record);
    ASK(next_channel_sequence, bytes, length, at, a->numbers, a->record);
    ASK(data_path_read, bytes, length, &a->offset, &a->size, a->record);
    ASK_WRITE(data_path_write);
    ASK(synchronization_read, bytes, length, &a->offset, &a->size, a->record);
    ASK_WRITE(synchronization_write);
    ASK(channel_sequence_read, bytes, length, at, &a->offset, &a->size, a->record);
    ASK_WRITE(channel_sequence_write);
    ASK(sequence_read, bytes, length, at, in->encoding, &a->offset, &a->size, a->record);
    ASK_WRITE(sequence_write);
    ASK(judge, bytes, length, in->permitted, in->permitted_length, in->proposal, &a->offset, &a->own);
}

static void check(void)
{
    enum { INPUTS = 40000 };
    static struct input in;
    static struct answer answers[SIDES][ANSWERS];
    static unsigned long said[ANSWERS][32];
    for (size_t i = 0; i < INPUTS; i++) {
        vary(&in);
        for (size_t s = 0; s < SIDES; s++)
            ask(&sides[s], &in, answers[s]);
        for (size_t k = 0; k < ANSWERS; k++) {
            for (size_t s = 1; s < SIDES; s++)
                if (memcmp(&answers[0][k], &answers[s][k], sizeof answers[0][k])) {
                    fprintf(stderr, "bench: %s: %s and %s differ on input %zu: %u and %u, size %zu and %zu\n", answer_names[k], side_names[0],
                            side_names[s], i, answers[0][k].said, answers[s][k].said, answers[0][k].size, answers[s][k].size);
                    exit(1);
                }
            said[k][answers[0][k].said % 32]++;
        }
    }
    for (size_t c = 0; c < CASES; c++) {
        struct answer after[SIDES];
        for (size_t s = 0; s < SIDES; s++) {
            memset(record, 0, sizeof record);
            memset(buffer, 0, sizeof buffer);
            cases[c].run(&sides[s], 1);
            memset(&after[s], 0, sizeof after[s]);
            after[s].offset = offset, after[s].size = size, after[s].own = own, after[s].said = found;
            memcpy(after[s].numbers, numbers, sizeof numbers);
            memcpy(after[s].record, record, sizeof record);
            memcpy(after[s].buffer, buffer, sizeof buffer);
            if (memcmp(&after[0], &after[s], sizeof after[0])) {
                fprintf(stderr, "bench: %s: %s and %s differ\n", cases[c].name, side_names[0], side_names[s]);
                exit(1);
            }
        }
    }
    /* How often each number was answered tells whether the inputs are varied enough. */
    for (size_t k = 0; k < ANSWERS; k++) {
        printf("%s:", answer_names[k]);
        for (size_t number = 0; number < 32; number++)
            if (said[k][number])
                printf(" %zu (%lu)", number, said[k][number]);
        printf("\n");
    }
    printf("check: %d cases, and %d varied inputs of %d calls each: all answer alike\n", CASES, INPUTS, ANSWERS);
}

/* Nanoseconds. */

static double run_for(size_t c, size_t s, size_t n)
{
    struct timespec from, to;
    clock_gettime(CLOCK_MONOTONIC, &from);
    cases[c].run(&sides[s], n);
    clock_gettime(CLOCK_MONOTONIC, &to);
    return (to.tv_sec - from.tv_sec) * 1e9 + (to.tv_nsec - from.tv_nsec);
}

/* The best of many short rounds. In each the three take turns, so that what else the machine does falls on all of them. */
static void tell_time(void)
{
    for (size_t c = 0; c < CASES; c++) {
        size_t n = 1;
        while (run_for(c, 0, n) < 5e5)
            n *= 2;
        double best[SIDES] = {1e18, 1e18, 1e18};
        for (size_t round = 0; round < ROUNDS; round++)
            for (size_t turn = 0; turn < SIDES; turn++) {
                size_t s = (round + turn) % SIDES;
                double each = run_for(c, s, n) / n;
                if (each < best[s])
                    best[s] = each;
            }
        printf("%s\t%.1f\t%.1f\t%.1f\n", cases[c].name, best[0], best[1], best[2]);
    }
}

/* The stack: what lies below the driver's own frame is painted, and the lowest word that a call leaves in another colour tells its depth. */

enum { STACK = 1 << 18, PAINTED = 1 << 10, LIMIT = 4096, MOST_CALLS = 40 };
static const uint64_t PAINT = 0xA5A5A5A5A5A5A5A5;

static struct {
    const char *name;
    size_t bytes;
} depths[MOST_CALLS];

static inline __attribute__((always_inline)) volatile uint64_t *stack_pointer(void)
{
    volatile uint64_t *here;
#if defined __aarch64__
    __asm__ volatile("mov %0, sp" : "=r"(here));
#elif defined __x86_64__
    __asm__ volatile("mov %%rsp, %0" : "=r"(here));
#elif defined __s390x__
    __asm__ volatile("lgr %0, %%r15" : "=r"(here));
#else
#error "the name of the stack pointer is not known here"
#endif
    return here;
}

/* The place below which is painted: arguments that a caller puts on the stack lie there too, and are counted. */
static inline __attribute__((always_inline)) volatile uint64_t *paint(void)
{
    volatile uint64_t *here = stack_pointer();
    for (ptrdiff_t i = 1; i <= PAINTED; i++)
        here[-i] = PAINT;
    return here;
}

static inline __attribute__((always_inline)) size_t painted_over(volatile uint64_t *here)
{
    ptrdiff_t depth = PAINTED;
    while (depth > 0 && here[-depth] == PAINT)
        depth--;
    return depth * sizeof *here;
}

static void measure(const struct input *in)
{
    const uint8_t *bytes = in->bytes;
    const uint32_t *numbers_in = in->record;
    size_t length = in->length, at = in->at, k = 0;
    uint8_t out[4096];
    uint32_t told, answered[MOST_NUMBERS];
#define DEPTH(call, ...)                       \
    do {                                       \
        volatile uint64_t *here = paint();     \
        awdl_##call(__VA_ARGS__);              \
        size_t depth = painted_over(here);     \
        depths[k].name = #call;                \
        if (depth > depths[k].bytes)           \
            depths[k].bytes = depth;           \
        k++;                                   \
    } while (0)
#define DEPTH_RECORD(type)                                     \
    DEPTH(type##_consistent, numbers_in, &told);               \
    DEPTH(type##_size, numbers_in, &size);                     \
    DEPTH(type##_write, numbers_in, out, in->room, &size)
#define DEPTH_SEARCH(type)                                     \
    DEPTH(first_##type, bytes, length, numbers, answered);     \
    DEPTH(next_##type, bytes, length, at, numbers, answered)
    DEPTH(frame_read, bytes, length, &offset, &size, answered);
    DEPTH(frame_write, (const uint32_t[]){3, 0, numbers_in[2], numbers_in[3]}, bytes, length, out, sizeof out, &size);
    DEPTH(tx_delta, numbers_in[0], numbers_in[1]);
    DEPTH(write_item, in->encoding, bytes, length, out, sizeof out, &size);
    DEPTH(step, bytes, length, at, numbers);
    DEPTH_SEARCH(data_path);
    DEPTH_SEARCH(synchronization);
    DEPTH_SEARCH(channel_sequence);
    DEPTH(data_path_read, bytes, length, &offset, &size, answered);
    DEPTH_RECORD(data_path);
    DEPTH(data_path_mend, numbers_in, answered);
    DEPTH(synchronization_read, bytes, length, &offset, &size, answered);
    DEPTH_RECORD(synchronization);
    DEPTH(channel_sequence_read, bytes, length, at, &offset, &size, answered);
    DEPTH_RECORD(channel_sequence);
    DEPTH(sequence_read, bytes, length, at, in->encoding, &offset, &size, answered);
    DEPTH_RECORD(sequence);
    DEPTH(sequence_entry, numbers_in, in->room % 20, &told, answered);
    DEPTH(sequence_to_simple, numbers_in, answered);
    DEPTH(channel, numbers_in, &told);
    DEPTH(judge, bytes, length, in->permitted, in->permitted_length, in->proposal, &offset, &told);
    DEPTH(own_proposal, bytes, length, in->permitted, in->permitted_length, &offset, &told);
    DEPTH(channel_load, bytes, length, in->encoding, &offset, &told);
}

static void *measure_all(void *nothing)
{
    static struct input in;
    for (size_t i = 0; i < 3000; i++) {
        vary(&in);
        measure(&in);
    }
    return nothing;
}

static void stack(void)
{
    static _Alignas(4096) uint8_t room[STACK];
    pthread_attr_t attributes;
    pthread_t thread;
    pthread_attr_init(&attributes);
    if (pthread_attr_setstack(&attributes, room, sizeof room) || pthread_create(&thread, &attributes, measure_all, NULL)
        || pthread_join(thread, NULL))
        fail("the stack is not measured: no thread");
    size_t deepest = 0;
    for (size_t k = 0; k < MOST_CALLS && depths[k].name; k++) {
        printf("awdl_%s\t%zu\n", depths[k].name, depths[k].bytes);
        if (depths[k].bytes > deepest)
            deepest = depths[k].bytes;
    }
    printf("deepest\t%zu\n", deepest);
    if (deepest > LIMIT)
        fail("a call goes deeper than 4 KiB");
}

int main(int argc, char **argv)
{
    make_inputs();
    const char *mode = argc == 2 ? argv[1] : "";
    if (argc == 5 && !strcmp(argv[1], "run"))
        cases[atoi(argv[2]) % CASES].run(&sides[atoi(argv[3]) % SIDES], atoi(argv[4]));
    else if (!strcmp(mode, "check"))
        check();
    else if (!strcmp(mode, "time"))
        tell_time();
    else if (!strcmp(mode, "stack"))
        stack();
    else
        fail("check, time, stack, or run CASE SIDE TIMES");
    return 0;
}
