/*
 * How much stack each call takes. A call is made in a thread whose stack was
 * filled with one byte before; the deepest byte that is another afterwards tells,
 * and what a call of nothing takes is taken off. The calls are made under plans
 * with few columns and with 1,024, with few entries and with 4,096, all of them
 * on record, and with primes below and above 128: accepted, on each of their
 * ways, and refused for each cause. The most of each call must not be above the
 * header's number, nor far below it, so that a number out of date is noticed.
 * Prints "ok", or what is wrong; with an argument the most of each call too.
 */
#define _POSIX_C_SOURCE 200809L
#include "celerycrag.h"

#include <pthread.h>
#include <stdio.h>
#include <stdlib.h>
#include <string.h>

/* Room for every plan that is tried. */
enum {
    MOST_C = 1024,
    MOST_STORE = MOST_C * (MOST_C + 1) / 2 + MOST_C,
    MOST_FULL = MOST_C * (MOST_C + 1),
    MOST_STEPS = CELERY_STEPS_LEN(1, 63, 15),
    MOST_ENTRIES = 4096
};

/* The plan; d may be lent one too long. */
static size_t p, s, n, m, t, too_long;
static uint8_t radices[12], weights[CELERY_WEIGHTS_LEN(1, 63)], tables[CELERY_TABLES_LEN(251, 63)], d[MOST_C];
#define PLAN                                                                  \
    p, s, n, m, t, radices, n, weights, CELERY_WEIGHTS_LEN(n, m), tables,     \
    CELERY_TABLES_LEN(p, m), d, CELERY_D_LEN(n, m, t) + too_long

/* What else is lent, and the answer. */
static uint8_t store[MOST_STORE], work[MOST_STORE], full[MOST_FULL], row[MOST_C], beta[MOST_C], digits[12];
static uint8_t residue, general, y, answer;
static uint16_t steps[MOST_STEPS], withdrawn;
static struct celery_record records[MOST_ENTRIES];
static char text[6 * MOST_STEPS + 100];
static size_t entries, entry, value, column, count, steps_len, text_len, written, bootstraps, norm, line;
#define C CELERY_COLUMNS(n, m, t)
#define STORE store, CELERY_STORE_LEN(n, m, t)
#define WORK work, CELERY_STORE_LEN(n, m, t)
#define FULL full, CELERY_FULL_STORE_LEN(n, m, t)
#define STEPS steps, steps_len

/* A call with what the header says of it, and the most that it took here. */
struct call {
    const char *name;
    void (*make)(void);
    size_t said, most;
};
#define CALL(name, NAME, ...)                                                 \
    static void make_##name(void)                                             \
    {                                                                         \
        answer = celery_##name(__VA_ARGS__);                                  \
    }                                                                         \
    static struct call call_##name = {#name, make_##name, CELERY_STACK_##NAME, 0};
CALL(check, CHECK, PLAN)
CALL(row, ROW, PLAN, entry, row, C)
CALL(test, TEST, PLAN, STORE)
CALL(file, FILE, PLAN, STORE, entry, value, &column)
CALL(file_recorded, FILE_RECORDED, PLAN, STORE, WORK, records, entries, &count, entry, value, &column)
CALL(withdraw, WITHDRAW, PLAN, STORE, WORK, records, entries, &count, entry, &withdrawn)
CALL(coefficients, COEFFICIENTS, PLAN, STORE, beta, C)
CALL(settle, SETTLE, PLAN, STORE, entry, &residue, &column)
CALL(general, GENERAL, PLAN, WORK, &general)
CALL(to_half, TO_HALF, PLAN, FULL, STORE)
CALL(to_full, TO_FULL, PLAN, STORE, FULL)
CALL(check_writing, CHECK_WRITING, PLAN, beta, C, STEPS)
CALL(write, WRITE, PLAN, beta, C, STEPS, &written)
CALL(run, RUN, PLAN, STEPS, digits, n, &y, &bootstraps)
CALL(worst_norm, WORST_NORM, PLAN, beta, C, &norm)
CALL(read_steps, READ_STEPS, PLAN, STEPS, beta, C)
CALL(read_listing, READ_LISTING, PLAN, (const uint8_t *)text, text_len, beta, C, &line)
static struct call *const calls[] = {
    &call_check, &call_row, &call_test, &call_file, &call_file_recorded, &call_withdraw, &call_coefficients,
    &call_settle, &call_general, &call_to_half, &call_to_full, &call_check_writing, &call_write, &call_run,
    &call_worst_norm, &call_read_steps, &call_read_listing,
};
enum { CALLS = sizeof calls / sizeof *calls };

/* The stack that is filled, who is called on it, and how deep that went. */
enum { SIZE = 256 * 1024, PAGE = 4096, FILL = 0xA5 };
static unsigned char *stack;
static void (*called)(void);
static size_t depth, depth_of_nothing;

static void nothing(void)
{
}

/* The thread looks itself, since its end takes stack too. */
static void *enter(void *unused)
{
    size_t left = 0;
    called();
    while (left < SIZE && stack[left] == FILL)
        left++;
    depth = SIZE - left;
    return unused;
}

static void call_in_thread(void (*make)(void))
{
    pthread_attr_t attributes;
    pthread_t thread;
    called = make;
    memset(stack, FILL, SIZE);
    if (pthread_attr_init(&attributes) != 0 || pthread_attr_setstack(&attributes, stack, SIZE) != 0 ||
        pthread_create(&thread, &attributes, enter, NULL) != 0 || pthread_join(thread, NULL) != 0) {
        puts("there is no thread on a stack of its own");
        exit(1);
    }
    pthread_attr_destroy(&attributes);
}

/* Makes a call, which must answer this. */
static void expect(struct call *call, int number)
{
    call_in_thread(call->make);
    if (answer != number) {
        printf("celery_%s answers %d and not %d for %zu %zu %zu %zu %zu\n", call->name, answer, number, p, s, n, m, t);
        exit(1);
    }
    if (depth - depth_of_nothing > call->most)
        call->most = depth - depth_of_nothing;
}

/* Any residues, the same each time. */
static void draw(uint8_t *bytes, size_t length)
{
    static uint32_t state = 1;
    size_t i;
    for (i = 0; i < length; i++) {
        state = state * 1664525 + 1013904223;
        bytes[i] = (uint8_t)((state >> 8) % p);
    }
}

/* Each call with each of the causes 1 to 5. */
static void refused(void)
{
    size_t i, kept;
    for (i = 0; i < CALLS; i++) {
        kept = p, p = 9, expect(calls[i], CELERY_NO_PRIME), p = kept;
        kept = s, s = 1, expect(calls[i], CELERY_RADIX), s = kept;
        kept = n, n = 0, expect(calls[i], CELERY_RANGE), n = kept;
        too_long = 1, expect(calls[i], CELERY_LENGTH), too_long = 0;
        tables[0] = 255, expect(calls[i], CELERY_NO_RESIDUE), tables[0] = 0;
    }
}

/* Files the table of link 0 and lists it, and settles entries meanwhile; a thread for each would take long. */
static void filed(void)
{
    memset(store, 0, sizeof store);
    for (count = 0; count < entries; count++) {
        int in_thread = count % 64 < 2;
        entry = count;
        make_row();
        value = row[C - m];
        if (in_thread)
            expect(&call_row, 0), expect(&call_settle, 0), expect(&call_file, 0), expect(&call_settle, 0);
        else
            make_file();
        records[count].entry = (uint16_t)entry;
        records[count].value = (uint16_t)value;
    }
    expect(&call_file, 0);
    value = (value + 1) % s, expect(&call_file, CELERY_CONTRADICTION);
    value = s, expect(&call_file, CELERY_NO_VALUE);
    entry = entries, expect(&call_file, CELERY_NO_ENTRY), expect(&call_settle, CELERY_NO_ENTRY);
    expect(&call_row, CELERY_NO_ENTRY), expect(&call_test, 0), expect(&call_coefficients, 0);
    expect(&call_to_full, 0), expect(&call_to_half, 0), expect(&call_general, 0);
}

/* With all entries on record; then with none, to which one is added. Last, stores that are damaged. */
static void recorded(void)
{
    entry = 1, expect(&call_withdraw, 0), value = withdrawn, expect(&call_file_recorded, 0);
    value = (value + 1) % s, expect(&call_file_recorded, CELERY_CONTRADICTION);
    memset(store, 0, sizeof store), records[0] = records[count - 1];
    count = 1, expect(&call_file_recorded, CELERY_RECORDS), expect(&call_withdraw, CELERY_RECORDS);
    count = 0, expect(&call_withdraw, CELERY_NOT_LISTED), expect(&call_file_recorded, 0), expect(&call_withdraw, 0);
    value = s, expect(&call_file_recorded, CELERY_NO_VALUE);
    entry = entries, expect(&call_file_recorded, CELERY_NO_ENTRY), expect(&call_withdraw, CELERY_NO_ENTRY);
    memset(store, 255, sizeof store), memset(full, 255, sizeof full);
    expect(&call_file_recorded, CELERY_DAMAGED), expect(&call_withdraw, CELERY_DAMAGED);
    expect(&call_test, CELERY_DAMAGED), expect(&call_file, CELERY_DAMAGED), expect(&call_settle, CELERY_DAMAGED);
    expect(&call_coefficients, CELERY_DAMAGED), expect(&call_to_half, CELERY_DAMAGED);
    expect(&call_to_full, CELERY_DAMAGED);
}

/* A program and its listing, written, run and read back; then with something wrong. */
static void programs(void)
{
    size_t i;
    draw(beta, C);
    steps_len = CELERY_STEPS_LEN(n, m, t) - 1, expect(&call_check_writing, CELERY_NO_ROOM);
    expect(&call_write, CELERY_NO_ROOM);
    steps_len++, expect(&call_check_writing, 0), expect(&call_write, 0), expect(&call_worst_norm, 0);
    text_len = (size_t)sprintf(text, "bootstraps steps worst\n%zu %zu %zu\nkind to from by\n", m + 2 * t, steps_len / 4,
                               norm);
    for (i = 0; i < steps_len; i++)
        text_len += (size_t)sprintf(text + text_len, "%u%c", (unsigned)steps[i], i % 4 < 3 ? ' ' : '\n');
    expect(&call_run, 0), expect(&call_read_steps, 0), expect(&call_read_listing, 0);
    steps[steps_len - 1] = 999, expect(&call_run, CELERY_STEPS), expect(&call_read_steps, CELERY_NOT_WRITTEN);
    steps_len = 0, expect(&call_run, 0), expect(&call_read_steps, CELERY_NOT_WRITTEN);
    digits[0] = 255, expect(&call_run, CELERY_NO_DIGIT);
    text[23] ^= 1, expect(&call_read_listing, CELERY_NOT_WRITTEN);
    text_len--, expect(&call_read_listing, CELERY_MALFORMED);
}

int main(int arguments, char **argument)
{
    static const size_t primes[] = {127, 251};
    /* n, m and t: the most entries and columns, the most steps, a general plan, a pivot in each column, the fewest. */
    static const size_t shapes[][3] = {{12, 52, 15}, {1, 63, 15}, {9, 55, 15}, {12, 52, 0}, {1, 1, 0}};
    void *block = NULL;
    size_t i, j;
    int wrong = 0;

    if (posix_memalign(&block, PAGE, SIZE) != 0)
        return 1;
    stack = (unsigned char *)block;
    call_in_thread(nothing);
    depth_of_nothing = depth;
    for (i = 0; i < 2 * sizeof shapes / sizeof *shapes; i++) {
        p = s = primes[i % 2], n = shapes[i / 2][0], m = shapes[i / 2][1], t = shapes[i / 2][2];
        draw(weights, sizeof weights), draw(tables, sizeof tables), draw(d, sizeof d);
        memset(digits, 1, sizeof digits);
        for (entries = 1, j = 0; j < n; j++)
            entries *= radices[j] = n == 1 ? (uint8_t)p : 2;
        expect(&call_check, 0), refused(), filed(), recorded(), programs();
    }
    free(block);

    for (i = 0; i < CALLS; i++) {
        const struct call *call = calls[i];
        int is_wrong = call->most > call->said || call->said > call->most + call->most / 4 + 512;
        if (is_wrong || arguments > 1)
            printf("celery_%s takes %zu bytes of stack, the header says %zu\n", call->name, call->most, call->said);
        wrong |= is_wrong;
    }
    if (!wrong)
        puts("ok");
    (void)argument;
    return wrong;
}
