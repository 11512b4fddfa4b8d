/*
 * The exclusive or of two bits, from the plan to the program, through the C
 * interface: files the table, asks meanwhile which entries are settled, reads
 * the coefficients off, writes the program, runs it on all four inputs and
 * compares. The same for the days of a month under two radices, 12 and 2. Then
 * entries are settled to residues of s and more, every part that can be empty is
 * lent as a null pointer, the coefficients are read back from the program and
 * from its listing, stores are moved from the full layout and back, plans are
 * asked whether they are general, and one output of the table is corrected: its
 * entry is withdrawn and filed anew, which another plan does not allow until a
 * second entry is withdrawn. It is C and C++. Prints "ok", or the line at fault.
 */
#include "celerycrag.h"

#include <stdio.h>
#include <string.h>

/* A part of length 0 may be null, as an empty vector's is. */
#ifdef __cplusplus
#include <vector>
static const std::vector<uint8_t> none;
#define NONE none.data(), none.size()
#else
#define NONE NULL, 0
#endif

enum { P = 3, S = 2, N = 2, M = 0, T = 1 };
enum {
    C = CELERY_COLUMNS(N, M, T),
    STORE = CELERY_STORE_LEN(N, M, T),
    FULL = CELERY_FULL_STORE_LEN(N, M, T),
    STEPS = CELERY_STEPS_LEN(N, M, T),
    /* More room than the program needs; the rest must keep its values. */
    ROOM = STEPS + 3
};

static const uint8_t radices[CELERY_RADICES_LEN(N)] = {2, 2};
static const uint8_t d[CELERY_D_LEN(N, M, T)] = {1, 1};
#define BITS radices, sizeof radices
#define XOR P, S, N, M, T, BITS, NONE, NONE, d, sizeof d
/* The same without products. */
#define BARE P, S, N, 0, 0, BITS, NONE, NONE, NONE

#define CHECK(fact)                                                     \
    do {                                                                \
        if (!(fact)) {                                                  \
            printf("%s, line %d: %s\n", __FILE__, __LINE__, #fact);     \
            return 1;                                                   \
        }                                                               \
    } while (0)

static const uint16_t program[STEPS] = {
    0, 6, 0, 0, /* y = 0 */
    0, 2, 0, 0, /* u = 0 */
    1, 2, 0, 0, 1, 2, 1, 1,
    0, 3, 0, 0, /* v = 0 */
    1, 3, 0, 1, 1, 3, 1, 1,
    0, 4, 0, 0, /* a = u + v */
    1, 4, 2, 1, 1, 4, 3, 1,
    0, 5, 0, 0, /* b = u - v */
    1, 5, 2, 1, 1, 5, 3, 2,
    2, 4, 4, 0, 2, 5, 5, 1,
    1, 6, 4, 1, 1, 6, 5, 1,
    1, 6, 0, 1, 1, 6, 1, 0,
};

/* The same as the filing program prints it. */
static const char printed[] =
    "bootstraps steps worst\n2 19 2\nkind to from by\n"
    "0 6 0 0\n0 2 0 0\n1 2 0 0\n1 2 1 1\n0 3 0 0\n1 3 0 1\n1 3 1 1\n"
    "0 4 0 0\n1 4 2 1\n1 4 3 1\n0 5 0 0\n1 5 2 1\n1 5 3 2\n"
    "2 4 4 0\n2 5 5 1\n1 6 4 1\n1 6 5 1\n1 6 0 1\n1 6 1 0\n";
/* Without the 0 that ends it in C. */
enum { PRINTED = sizeof printed - 1 };

/* Whether so many bytes are all this one. */
static int all_are(const uint8_t *bytes, size_t count, uint8_t byte)
{
    size_t i;
    for (i = 0; i < count && bytes[i] == byte; i++) {
    }
    return i == count;
}

/* A refused call leaves the single number as it was. */
static int file(uint8_t *store, size_t entry, size_t value, int answer, size_t column)
{
    size_t found = 999;
    int given = celery_file(XOR, store, STORE, entry, value, &found);
    return given == answer && found == (answer == CELERY_ACCEPTED ? column : 999);
}

/* Free tells p and the column, forced the residue and C; a refused call leaves both numbers as they were. */
static int settle(const uint8_t *store, size_t entry, int answer, uint8_t residue, size_t column)
{
    uint8_t told = 255;
    size_t found = 999;
    int given = celery_settle(XOR, store, STORE, entry, &told, &found);
    if (answer != CELERY_ACCEPTED)
        residue = 255, column = 999;
    return given == answer && told == residue && found == column;
}

/*
 * The days of a month beyond 28: a month of 12 and a bit that says whether the
 * year is a leap year, so 24 entries, whose values are below 4. Link 0 is 1 at
 * February of a leap year alone, since there alone the month plus 11 times the
 * bit is 12 modulo 13; link 1 is a table of the month, and the value is their
 * sum.
 */
enum { DAYS_P = 13, DAYS_S = 4, DAYS_N = 2, DAYS_M = 2, DAYS_T = 0, ENTRIES = 24 };
enum {
    DAYS_C = CELERY_COLUMNS(DAYS_N, DAYS_M, DAYS_T),
    DAYS_STORE = CELERY_STORE_LEN(DAYS_N, DAYS_M, DAYS_T),
    DAYS_STEPS = CELERY_STEPS_LEN(DAYS_N, DAYS_M, DAYS_T)
};
static const uint8_t month_and_bit[CELERY_RADICES_LEN(DAYS_N)] = {12, 2};
static const uint8_t days_weights[CELERY_WEIGHTS_LEN(DAYS_N, DAYS_M)] = {1, 11, 1, 0, 0};
static const uint8_t days_tables[CELERY_TABLES_LEN(DAYS_P, DAYS_M)] = {
    0, 0, 0, 0, 0, 0, 0, 0, 0, 0, 0, 0, 1, /* at the sum 12 */
    3, 0, 3, 2, 3, 2, 3, 3, 2, 3, 2, 3, 0, /* at the month, which is never 12 */
};
/* Lends the plan with other radices. */
#define DAYS_IN(given, count)                                               \
    DAYS_P, DAYS_S, DAYS_N, DAYS_M, DAYS_T, given, count,                   \
    days_weights, sizeof days_weights, days_tables, sizeof days_tables, NONE
#define DAYS DAYS_IN(month_and_bit, sizeof month_and_bit)

/* The same from the calendar, without the plan. */
static size_t beyond_28(size_t month, size_t leap)
{
    switch (month) {
    case 1:
        return leap;
    case 3:
    case 5:
    case 8:
    case 10:
        return 2;
    default:
        return 3;
    }
}

/* Files all entries, runs the program on each input, and lends what is refused. Answers 0, or prints the line at fault. */
static int days_of_a_month(void)
{
    static const uint8_t off[DAYS_C] = {0, 0, 1, 1}, middle[DAYS_C] = {6, 7, 7, 6};
    /* Radices that are refused, each with so many of them and the answer. */
    static const struct {
        uint8_t radices[5];
        size_t count;
        int answer;
    } wrong[] = {
        {{12, 1}, 2, CELERY_RADIX},
        {{0, 2}, 2, CELERY_RADIX},
        {{14, 2}, 2, CELERY_RADIX},
        {{12, 255}, 2, CELERY_RADIX},
        {{12, 2, 1}, 3, CELERY_RADIX}, /* 2 before 4 */
        {{13, 13, 13, 13, 1}, 5, CELERY_RADIX}, /* 2 before 3 */
        {{13, 13, 13, 13}, 4, CELERY_RANGE}, /* 28,561 entries: 3 before 4 */
        {{8, 8, 8, 8}, 4, CELERY_LENGTH}, /* 4,096 entries */
        {{12, 2, 2}, 3, CELERY_LENGTH},
        {{12}, 1, CELERY_LENGTH},
        {{12}, 0, CELERY_LENGTH},
    };
    static const uint8_t late_month[DAYS_N] = {12, 1}, late_bit[DAYS_N] = {1, 2};
    uint8_t store[DAYS_STORE] = {0}, kept[DAYS_STORE] = {0};
    uint8_t row[DAYS_C] = {0}, beta[DAYS_C] = {0}, y = 99;
    uint16_t steps[DAYS_STEPS] = {0}, value = 999;
    struct celery_record records[ENTRIES] = {{0, 0}};
    size_t written = 0, column = 999, bootstraps = 999, norm = 999, count = 0, new_rows = 0, entry, i;

    CHECK(celery_check(DAYS) == CELERY_ACCEPTED);
    for (entry = 0; entry < ENTRIES; entry++) {
        size_t days = beyond_28(entry / 2, entry % 2);
        CHECK(celery_file(DAYS, store, sizeof store, entry, days, &column) == CELERY_ACCEPTED);
        new_rows += column < DAYS_C;
    }
    CHECK(new_rows == DAYS_C);
    for (entry = 0; entry < ENTRIES; entry++) {
        CHECK(celery_settle(DAYS, store, sizeof store, entry, &y, &column) == CELERY_ACCEPTED);
        CHECK(y == beyond_28(entry / 2, entry % 2) && column == DAYS_C);
    }
    CHECK(celery_coefficients(DAYS, store, sizeof store, beta, sizeof beta) == CELERY_ACCEPTED);
    CHECK(memcmp(beta, off, sizeof beta) == 0);
    /* Of the weights of link 0, 11 counts as -2. As coefficients, 6 counts as itself and 7 as -6. */
    CHECK(celery_worst_norm(DAYS, beta, sizeof beta, &norm) == CELERY_ACCEPTED);
    CHECK(norm == 1 + 2 * 2);
    CHECK(celery_worst_norm(DAYS, middle, sizeof middle, &norm) == CELERY_ACCEPTED);
    CHECK(norm == 4 * 6 * 6);
    CHECK(celery_write(DAYS, beta, sizeof beta, steps, DAYS_STEPS, &written) == CELERY_ACCEPTED);
    CHECK(written == DAYS_STEPS);

    for (entry = 0; entry < ENTRIES; entry++) {
        uint8_t digits[DAYS_N] = {(uint8_t)(entry / 2), (uint8_t)(entry % 2)};
        CHECK(celery_row(DAYS, entry, row, sizeof row) == CELERY_ACCEPTED);
        CHECK(memcmp(row, digits, sizeof digits) == 0);
        CHECK(celery_run(DAYS, steps, written, digits, DAYS_N, &y, &bootstraps) == CELERY_ACCEPTED);
        CHECK(y == beyond_28(digits[0], digits[1]));
        CHECK(bootstraps == DAYS_M);
    }

    /* Entry 24 is refused, a value of 4, a month of 12, and a bit of 2, though a month may be 2. */
    memcpy(kept, store, sizeof store);
    column = 999, y = 99, bootstraps = 999;
    CHECK(celery_row(DAYS, ENTRIES, row, sizeof row) == CELERY_NO_ENTRY);
    CHECK(celery_file(DAYS, store, sizeof store, ENTRIES, 0, &column) == CELERY_NO_ENTRY);
    CHECK(celery_file(DAYS, store, sizeof store, 0, DAYS_S, &column) == CELERY_NO_VALUE);
    CHECK(celery_file(DAYS, store, sizeof store, 3, 0, &column) == CELERY_CONTRADICTION);
    CHECK(celery_settle(DAYS, store, sizeof store, ENTRIES, &y, &column) == CELERY_NO_ENTRY);
    CHECK(celery_run(DAYS, steps, written, late_month, DAYS_N, &y, &bootstraps) == CELERY_NO_DIGIT);
    CHECK(celery_run(DAYS, steps, written, late_bit, DAYS_N, &y, &bootstraps) == CELERY_NO_DIGIT);
    CHECK(memcmp(kept, store, sizeof store) == 0);
    CHECK(column == 999 && y == 99 && bootstraps == 999);

    for (i = 0; i < sizeof wrong / sizeof *wrong; i++) {
        CHECK(celery_check(DAYS_IN(wrong[i].radices, wrong[i].count)) == wrong[i].answer);
        CHECK(celery_file(DAYS_IN(wrong[i].radices, wrong[i].count), store, sizeof store, 3, 1, &column) ==
              wrong[i].answer);
        CHECK(celery_settle(DAYS_IN(wrong[i].radices, wrong[i].count), store, sizeof store, 3, &y, &column) ==
              wrong[i].answer);
        CHECK(celery_general(DAYS_IN(wrong[i].radices, wrong[i].count), store, sizeof store, &y) == wrong[i].answer);
        CHECK(celery_file_recorded(DAYS_IN(wrong[i].radices, wrong[i].count), store, sizeof store, kept, sizeof kept,
                                   records, ENTRIES, &count, 3, 1, &column) == wrong[i].answer);
        CHECK(celery_withdraw(DAYS_IN(wrong[i].radices, wrong[i].count), store, sizeof store, kept, sizeof kept,
                              records, ENTRIES, &count, 3, &value) == wrong[i].answer);
    }
    CHECK(memcmp(kept, store, sizeof store) == 0);
    CHECK(column == 999 && y == 99 && count == 0 && value == 999);
    return 0;
}

/* One digit of radix 5 with p = 5 and s = 2. */
static const uint8_t five[CELERY_RADICES_LEN(1)] = {5};
#define DIGIT 5, 2, 1, 0, 0, five, sizeof five, NONE, NONE, NONE

/*
 * Once entry 1 has the value 1, beta is 1, and every entry is forced to its own
 * number, also to 2 and more, which are no values. Answers 0, or prints the line
 * at fault.
 */
static int settled_beyond_s(void)
{
    uint8_t store[CELERY_STORE_LEN(1, 0, 0)] = {0}, residue = 255;
    size_t column = 999, entry;

    CHECK(celery_settle(DIGIT, store, sizeof store, 3, &residue, &column) == CELERY_ACCEPTED);
    CHECK(residue == 5 && column == 0);
    CHECK(celery_file(DIGIT, store, sizeof store, 1, 1, &column) == CELERY_ACCEPTED);
    for (entry = 0; entry < 5; entry++) {
        CHECK(celery_settle(DIGIT, store, sizeof store, entry, &residue, &column) == CELERY_ACCEPTED);
        CHECK(residue == entry && column == 1);
    }
    CHECK(celery_file(DIGIT, store, sizeof store, 3, 0, &column) == CELERY_CONTRADICTION);
    CHECK(celery_file(DIGIT, store, sizeof store, 3, 1, &column) == CELERY_CONTRADICTION);
    CHECK(celery_file(DIGIT, store, sizeof store, 3, 3, &column) == CELERY_NO_VALUE);
    CHECK(celery_settle(DIGIT, store, sizeof store, 5, &residue, &column) == CELERY_NO_ENTRY);
    CHECK(residue == 4 && column == 1);
    return 0;
}

/* An accepted call writes all of beta, a refused one nothing. */
static int read_steps(const uint16_t *steps, size_t count, int answer, const uint8_t *beta)
{
    static const uint8_t old[C] = {255, 254, 253, 252};
    uint8_t found[C] = {255, 254, 253, 252};
    int given = celery_read_steps(XOR, steps, count, found, C);
    return given == answer && memcmp(found, answer == CELERY_ACCEPTED ? beta : old, C) == 0;
}

/* The same of a text; only a refusal with 13 or 15 tells a line. */
static int read_listing(const char *text, size_t count, int answer, size_t line, const uint8_t *beta)
{
    static const uint8_t old[C] = {255, 254, 253, 252};
    uint8_t found[C] = {255, 254, 253, 252};
    size_t told = 999;
    int given = celery_read_listing(XOR, (const uint8_t *)text, count, found, C, &told);
    if (answer == CELERY_ACCEPTED)
        line = 999;
    return given == answer && told == line && memcmp(found, answer == CELERY_ACCEPTED ? beta : old, C) == 0;
}

/*
 * Reads XOR's program and its listing back, each of all 81 beta, and each with
 * something wrong. Answers 0, or prints the line at fault.
 */
static int read_back(void)
{
    static const uint8_t off[C] = {0, 1, 1, 0}, other_d[CELERY_D_LEN(N, M, T)] = {1, 2};
    /* Lines that are malformed in place of the figures, and figures that are wrong. */
    static const char *const malformed[] = {
        "2 19 2 ", "2 19  2", "02 19 2", "2 19", "2 19 2 0", "2 19 2\r", "2 19 10000000", "",
    };
    static const char *const wrong[] = {"3 19 2", "1 19 2", "2 20 2", "2 18 2", "2 19 3", "2 19 1", "2 19 9999999"};
    uint8_t beta[C] = {0};
    uint16_t steps[STEPS + 4] = {0};
    char text[PRINTED + 64];
    size_t line = 999, written = 0, number, i;

    CHECK(read_steps(program, STEPS, CELERY_ACCEPTED, off));
    CHECK(read_listing(printed, PRINTED, CELERY_ACCEPTED, 0, off));

    /* Every beta comes back, and with a number changed elsewhere none does. */
    for (number = 0; number < 81; number++) {
        size_t rest = number;
        for (i = 0; i < C; i++, rest /= P)
            beta[i] = (uint8_t)(rest % P);
        CHECK(celery_write(XOR, beta, C, steps, STEPS, &written) == CELERY_ACCEPTED);
        CHECK(read_steps(steps, written, CELERY_ACCEPTED, beta));
        steps[4 * 5 + 3] = 2; /* a weight of d */
        CHECK(read_steps(steps, written, CELERY_NOT_WRITTEN, NULL));
    }

    /* Other lengths, an empty list, and a coefficient of p, which celery_run would refuse with 11. */
    memcpy(steps, program, sizeof program);
    for (i = 0; i < STEPS; i++)
        CHECK(read_steps(steps, i, CELERY_NOT_WRITTEN, NULL));
    for (i = STEPS + 1; i <= STEPS + 4; i++)
        CHECK(read_steps(steps, i, CELERY_NOT_WRITTEN, NULL));
    CHECK(read_steps(NULL, 0, CELERY_NOT_WRITTEN, NULL));
    steps[STEPS - 1] = P;
    CHECK(read_steps(steps, STEPS, CELERY_NOT_WRITTEN, NULL));

    /* Every listing that ends early: within a line, or before line 4. */
    for (i = 0, number = 0; i < PRINTED; i++) {
        int malformed_here = number < 3 || (i > 0 && printed[i - 1] != '\n');
        CHECK(read_listing(printed, i, malformed_here ? CELERY_MALFORMED : CELERY_NOT_WRITTEN,
                           malformed_here ? number + 1 : 1, NULL));
        number += printed[i] == '\n';
    }
    CHECK(number == 22);
    CHECK(read_listing(NULL, 0, CELERY_MALFORMED, 1, NULL));
    /* The 0 that ends it in C is no byte of a listing. */
    CHECK(read_listing(printed, sizeof printed, CELERY_MALFORMED, 23, NULL));

    for (i = 0; i < sizeof malformed / sizeof *malformed; i++) {
        number = (size_t)snprintf(text, sizeof text, "%.23s%s%s", printed, malformed[i], printed + 29);
        CHECK(read_listing(text, number, CELERY_MALFORMED, 2, NULL));
    }
    for (i = 0; i < sizeof wrong / sizeof *wrong; i++) {
        number = (size_t)snprintf(text, sizeof text, "%.23s%s%s", printed, wrong[i], printed + 29);
        CHECK(read_listing(text, number, CELERY_NOT_WRITTEN, 1, NULL));
        /* 13 before 15 */
        number += (size_t)snprintf(text + number, sizeof text - number, "0 0 0 x\n");
        CHECK(read_listing(text, number, CELERY_MALFORMED, 23, NULL));
    }
    /* 65,536 is a number of five digits, and none of a step. */
    number = (size_t)snprintf(text, sizeof text, "%.*s65536\n", (int)PRINTED - 2, printed);
    CHECK(read_listing(text, number, CELERY_NOT_WRITTEN, 1, NULL));
    number = (size_t)snprintf(text, sizeof text, "%.*s100000\n", (int)PRINTED - 2, printed);
    CHECK(read_listing(text, number, CELERY_MALFORMED, 22, NULL));

    /* The length of beta comes first, and tells no line; so does the plan. */
    CHECK(celery_read_steps(XOR, program, STEPS, beta, C - 1) == CELERY_LENGTH);
    CHECK(celery_read_steps(XOR, NULL, 0, NULL, 0) == CELERY_LENGTH);
    CHECK(celery_read_listing(XOR, NULL, 0, beta, C - 1, &line) == CELERY_LENGTH);
    CHECK(celery_read_listing(XOR, NULL, 0, NULL, 0, &line) == CELERY_LENGTH);
    CHECK(celery_read_listing(9, S, N, M, T, BITS, NONE, NONE, d, sizeof d, NULL, 0, beta, C, &line) == CELERY_NO_PRIME);
    CHECK(line == 999);

    /* Under another row of d neither is right. */
    CHECK(celery_read_steps(P, S, N, M, T, BITS, NONE, NONE, other_d, sizeof other_d, program, STEPS, beta, C)
          == CELERY_NOT_WRITTEN);
    CHECK(celery_read_listing(P, S, N, M, T, BITS, NONE, NONE, other_d, sizeof other_d, (const uint8_t *)printed,
                              PRINTED, beta, C, &line)
          == CELERY_NOT_WRITTEN);
    CHECK(line == 1);
    return 0;
}

/* Where row q of a store begins, as the header says. */
static size_t row_begins(size_t q)
{
    return q * (C + 1) - q * (q - 1) / 2;
}

/* Room for a store in either layout and one byte more, which is beyond every length that is right. */
enum { WIDE = FULL + 1 };

/* An accepted move writes all of its target and nothing behind it, a refused one nothing. */
static int move_in(size_t full_len, size_t half_len, int back, const uint8_t *source, int answer, const uint8_t *expected)
{
    uint8_t lent[WIDE] = {0}, target[WIDE], due[WIDE];
    size_t from = back ? half_len : full_len, to = back ? full_len : half_len;
    int given;
    memcpy(lent, source, from);
    memset(target, 0xA5, WIDE);
    memset(due, 0xA5, WIDE);
    given = back ? celery_to_full(XOR, from ? lent : NULL, from, to ? target : NULL, to)
                 : celery_to_half(XOR, from ? lent : NULL, from, to ? target : NULL, to);
    if (answer == CELERY_ACCEPTED)
        memcpy(due, expected, to);
    return given == answer && memcmp(target, due, WIDE) == 0;
}

static int to_half(const uint8_t *full, int answer, const uint8_t *expected)
{
    return move_in(FULL, STORE, 0, full, answer, expected);
}

static int to_full(const uint8_t *half, int answer, const uint8_t *expected)
{
    return move_in(FULL, STORE, 1, half, answer, expected);
}

/*
 * Moves stores of XOR from the full layout and back, after each filing, in wrong
 * lengths, and with each byte damaged. Answers 0, or prints the line at fault.
 */
static int moved(void)
{
    /* XOR's store as it was kept on disk, and as it is kept now. */
    static const uint8_t on_disk[FULL] = {
        1, 0, 0, 2, 0,
        0, 1, 0, 1, 1,
        0, 0, 1, 1, 1,
        0, 0, 0, 0, 0,
    };
    static const uint8_t now[STORE] = {1, 0, 0, 2, 0, 1, 0, 1, 1, 1, 1, 1, 0, 0};
    static const size_t entries[] = {0, 1, 2, 3, 3, 2}, values[] = {0, 1, 1, 0, 0, 1};
    uint8_t store[STORE] = {0}, other[STORE] = {0}, full[FULL] = {0}, beta[C] = {0}, residue = 255;
    /* One digit: the two layouts are the same two bytes. */
    uint8_t one[CELERY_STORE_LEN(1, 0, 0)] = {1, 3}, same[CELERY_FULL_STORE_LEN(1, 0, 0)] = {9, 9};
    struct celery_record records[4] = {{0, 0}};
    uint16_t value = 999;
    size_t column = 999, count = 0, i, q, j;

    CHECK(STORE == 14 && FULL == 20 && row_begins(C) == STORE);
    CHECK(CELERY_STORE_LEN(12, 0, 29) == 65340); /* of 360 columns */
    CHECK(to_half(on_disk, CELERY_ACCEPTED, now));
    CHECK(to_full(now, CELERY_ACCEPTED, on_disk));
    CHECK(celery_coefficients(XOR, now, STORE, beta, C) == CELERY_ACCEPTED);
    CHECK(memcmp(beta, "\0\1\1\0", C) == 0);

    /* A store that is moved after each filing goes on as one that is not. */
    for (i = 0; i < sizeof entries / sizeof *entries; i++) {
        CHECK(celery_file(XOR, store, STORE, entries[i], values[i], &column) == CELERY_ACCEPTED);
        CHECK(celery_file(XOR, other, STORE, entries[i], values[i], &column) == CELERY_ACCEPTED);
        CHECK(memcmp(store, other, STORE) == 0);
        memset(full, 0xA5, FULL);
        CHECK(celery_to_full(XOR, other, STORE, full, FULL) == CELERY_ACCEPTED);
        for (q = 0; q < C; q++)
            for (j = 0; j <= C; j++)
                CHECK(full[q * (C + 1) + j] == (j < q ? 0 : store[row_begins(q) + j - q]));
        memset(other, 0xA5, STORE);
        CHECK(celery_to_half(XOR, full, FULL, other, STORE) == CELERY_ACCEPTED);
        CHECK(memcmp(store, other, STORE) == 0);
    }
    CHECK(memcmp(store, now, STORE) == 0);

    /* Each byte of the one layout and of the other with 255, and what is left of the diagonal with 1. */
    for (i = 0; i < STORE; i++) {
        memcpy(other, now, STORE);
        other[i] = 255;
        CHECK(to_full(other, CELERY_DAMAGED, NULL));
    }
    for (i = 0; i < FULL; i++) {
        memcpy(full, on_disk, FULL);
        full[i] = 255;
        CHECK(to_half(full, CELERY_DAMAGED, NULL));
        if (i % (C + 1) < i / (C + 1)) {
            full[i] = 1;
            CHECK(to_half(full, CELERY_DAMAGED, NULL));
        }
    }

    /* Every pair of lengths: only their own are accepted. The source is zeros, which is the empty store. */
    for (i = 0; i <= WIDE; i++)
        for (j = 0; j <= WIDE; j++) {
            int answer = i == FULL && j == STORE ? CELERY_ACCEPTED : CELERY_LENGTH;
            static const uint8_t zeros[WIDE] = {0};
            CHECK(move_in(i, j, 0, zeros, answer, zeros));
            CHECK(move_in(i, j, 1, zeros, answer, zeros));
        }
    memcpy(full, on_disk, FULL);
    memset(other, 0xA5, STORE);
    CHECK(celery_to_half(9, S, N, M, T, BITS, NONE, NONE, d, sizeof d, full, FULL, other, STORE) == CELERY_NO_PRIME);
    for (i = 0; i < STORE; i++)
        CHECK(other[i] == 0xA5);

    /* The full layout in every other call on a store. */
    column = 999;
    CHECK(celery_test(XOR, full, FULL) == CELERY_LENGTH);
    CHECK(celery_file(XOR, full, FULL, 0, 0, &column) == CELERY_LENGTH);
    CHECK(celery_coefficients(XOR, full, FULL, beta, C) == CELERY_LENGTH);
    CHECK(celery_settle(XOR, full, FULL, 0, &residue, &column) == CELERY_LENGTH);
    CHECK(celery_general(XOR, full, FULL, &residue) == CELERY_LENGTH);
    CHECK(celery_file_recorded(XOR, full, FULL, other, STORE, records, 4, &count, 0, 0, &column) == CELERY_LENGTH);
    CHECK(celery_file_recorded(XOR, store, STORE, full, FULL, records, 4, &count, 0, 0, &column) == CELERY_LENGTH);
    CHECK(celery_withdraw(XOR, full, FULL, other, STORE, records, 4, &count, 0, &value) == CELERY_LENGTH);
    CHECK(celery_withdraw(XOR, store, STORE, full, FULL, records, 4, &count, 0, &value) == CELERY_LENGTH);
    CHECK(column == 999 && residue == 255 && count == 0 && value == 999 && memcmp(full, on_disk, FULL) == 0);

    CHECK(sizeof one == sizeof same);
    CHECK(celery_to_full(DIGIT, one, sizeof one, same, sizeof same) == CELERY_ACCEPTED);
    CHECK(same[0] == 1 && same[1] == 3);
    CHECK(celery_test(DIGIT, same, sizeof same) == CELERY_ACCEPTED);
    one[0] = 0, one[1] = 9;
    CHECK(celery_to_half(DIGIT, same, sizeof same, one, sizeof one) == CELERY_ACCEPTED);
    CHECK(one[0] == 1 && one[1] == 3);
    return 0;
}

/*
 * A digit of radix 2 to 5 with p = 5, a link that is 1 where the digit is 0 and
 * else 0, and no product or one, by the digit.
 */
enum { LINK_P = 5, LINK_S = 4, LINK_N = 1, LINK_M = 1 };
static const uint8_t one_weight[CELERY_WEIGHTS_LEN(LINK_N, LINK_M)] = {1};
static const uint8_t at_zero[CELERY_TABLES_LEN(LINK_P, LINK_M)] = {1, 0, 0, 0, 0};
static const uint8_t by_digit[CELERY_D_LEN(LINK_N, LINK_M, 1)] = {1, 0};
#define LINKED(radix)                                                   \
    LINK_P, LINK_S, LINK_N, LINK_M, 0, radix, 1, one_weight,            \
    sizeof one_weight, at_zero, sizeof at_zero, NONE
#define PRODUCT(radix)                                                  \
    LINK_P, LINK_S, LINK_N, LINK_M, 1, radix, 1, one_weight,            \
    sizeof one_weight, at_zero, sizeof at_zero, by_digit, sizeof by_digit
enum { LINKED_STORE = CELERY_STORE_LEN(LINK_N, LINK_M, 0), PRODUCT_STORE = CELERY_STORE_LEN(LINK_N, LINK_M, 1) };

/*
 * Asks plans whether they are general. An accepted call answers 1 or 0 and leaves
 * the work store all zeros, whatever it held, and nothing is written behind it; a
 * refused one leaves the work store and the answer. Answers 0, or prints the line
 * at fault.
 */
static int general_plans(void)
{
    /* The macro is constant, as the lengths are. */
    enum { MOST = CELERY_MOST_NEW(N, M, T) };
    static const uint8_t radix[] = {2, 3, 4, 5}, olds[] = {0, 1, 2, 0xA5, 255};
    static const size_t values[] = {3, 0, 2};
    uint8_t work[STORE + 1], linked[LINKED_STORE], product[PRODUCT_STORE], general = 9;
    size_t column = 999, zero = 0, length, i, j;

    CHECK(MOST == 4);
    CHECK(CELERY_MOST_NEW(LINK_N, LINK_M, 0) == 2 && CELERY_MOST_NEW(LINK_N, LINK_M, 1) == 4);
    /* As many as C for no product and for one, then fewer, and the same from t = L on. */
    CHECK(CELERY_MOST_NEW(12, 52, 0) == 64 && CELERY_MOST_NEW(12, 52, 1) == 128);
    CHECK(CELERY_MOST_NEW(12, 52, 2) == 191 && CELERY_MOST_NEW(12, 52, 3) == 253);
    CHECK(CELERY_MOST_NEW(12, 52, 15) == 919);
    CHECK(CELERY_MOST_NEW(2, 0, 2) == 5 && CELERY_MOST_NEW(2, 0, 3) == 5 && CELERY_MOST_NEW(1, 1, 4) == 5);
    CHECK(CELERY_MOST_NEW(1, 0, 0) == 1 && CELERY_MOST_NEW(1, 0, 1) == 2 && CELERY_MOST_NEW(1, 0, 32) == 2);
    CHECK(CELERY_MOST_NEW(1, 29, 32) == 495 && CELERY_MOST_NEW(1, 30, 32) == 527 && CELERY_MOST_NEW(1, 31, 31) == 559);
    /* Of numbers without a sign too. */
    CHECK(CELERY_MOST_NEW((size_t)12, (size_t)52, zero) == 64);

    for (i = 0; i < sizeof olds; i++) {
        /* Entry 0 of XOR can only be 0. */
        memset(work, olds[i], sizeof work);
        general = 9;
        CHECK(celery_general(XOR, work, STORE, &general) == CELERY_ACCEPTED);
        CHECK(general == 0 && all_are(work, STORE, 0) && work[STORE] == olds[i]);

        /* Rows 0 1 and x 0: at most two entries. With the product 0 0 0 1 and x^2 0 x 0: at most three. */
        for (j = 0; j < sizeof radix; j++) {
            memset(linked, olds[i], sizeof linked);
            memset(product, olds[i], sizeof product);
            CHECK(celery_general(LINKED(radix + j), linked, sizeof linked, &general) == CELERY_ACCEPTED);
            CHECK(general == (radix[j] <= 2) && all_are(linked, sizeof linked, 0));
            CHECK(celery_general(PRODUCT(radix + j), product, sizeof product, &general) == CELERY_ACCEPTED);
            CHECK(general == (radix[j] <= 3) && all_are(product, sizeof product, 0));
        }
    }
    /* Under a general plan any values below s file; the work store is an empty one to begin with. */
    for (i = 0; i < 3; i++) {
        CHECK(celery_file(PRODUCT(radix + 1), product, sizeof product, i, values[i], &column) == CELERY_ACCEPTED);
        CHECK(column < CELERY_COLUMNS(LINK_N, LINK_M, 1));
    }

    /* Every other length, and each cause before the next: nothing is written. */
    general = 9;
    memset(work, 0xA5, sizeof work);
    for (length = 0; length <= sizeof work; length++)
        if (length != STORE)
            CHECK(celery_general(XOR, length ? work : NULL, length, &general) == CELERY_LENGTH);
    CHECK(celery_general(9, 1, 0, M, T, BITS, NONE, NONE, d, 1, work, 1, &general) == CELERY_NO_PRIME);
    CHECK(celery_general(P, 1, 0, M, T, BITS, NONE, NONE, d, 1, work, 1, &general) == CELERY_RADIX);
    CHECK(celery_general(P, S, 0, M, T, BITS, NONE, NONE, d, 1, work, 1, &general) == CELERY_RANGE);
    CHECK(celery_general(2 + P, S, N, M, T, BITS, NONE, NONE, d, 1, work, STORE, &general) == CELERY_LENGTH);
    CHECK(celery_general(P, S, N, M, T, BITS, NONE, NONE, olds + 2, 2, work, STORE, &general) == CELERY_NO_RESIDUE);
    CHECK(general == 9 && all_are(work, sizeof work, 0xA5));
    return 0;
}

/* What the two calls with records write, under XOR's plan of four entries. */
enum { LISTED = 4 };
struct ledger {
    uint8_t store[STORE], work[STORE];
    struct celery_record records[LISTED];
    size_t count;
};

/* An empty store and a count of 0; what the rest holds does not matter. */
static void begin(struct ledger *kept)
{
    memset(kept, 0xA5, sizeof *kept);
    memset(kept->store, 0, STORE);
    kept->count = 0;
}

/* A refusal leaves store, records and count, and every answer but 1 to 5 a work store of zeros. */
static int left(const struct ledger *kept, const struct ledger *before, int answer)
{
    if (!all_are(kept->work, STORE, answer >= CELERY_NO_PRIME && answer <= CELERY_NO_RESIDUE ? 0xA5 : 0))
        return 0;
    return answer == CELERY_ACCEPTED ||
           (memcmp(kept->store, before->store, STORE) == 0 && kept->count == before->count &&
            memcmp(kept->records, before->records, sizeof kept->records) == 0);
}

/* Files with so many records lent. */
static int file_in(struct ledger *kept, size_t lent, size_t entry, size_t value, int answer, size_t column)
{
    struct ledger before = *kept;
    size_t found = 999;
    int given;
    memset(kept->work, 0xA5, STORE);
    given = celery_file_recorded(XOR, kept->store, STORE, kept->work, STORE, kept->records, lent, &kept->count, entry,
                                 value, &found);
    return given == answer && found == (answer == CELERY_ACCEPTED ? column : 999) && left(kept, &before, answer);
}

/* The same of a withdrawal. */
static int withdraw_in(struct ledger *kept, size_t lent, size_t entry, int answer, uint16_t value)
{
    struct ledger before = *kept;
    uint16_t told = 999;
    int given;
    memset(kept->work, 0xA5, STORE);
    given = celery_withdraw(XOR, kept->store, STORE, kept->work, STORE, kept->records, lent, &kept->count, entry, &told);
    return given == answer && told == (answer == CELERY_ACCEPTED ? value : 999) && left(kept, &before, answer);
}

/* Whether both calls refuse, whatever the entry. */
static int refused(const struct ledger *kept, size_t lent, int answer)
{
    size_t entry;
    for (entry = 0; entry <= LISTED; entry++) {
        struct ledger filing = *kept, withdrawal = *kept;
        if (!file_in(&filing, lent, entry, 0, answer, 0) || !withdraw_in(&withdrawal, lent, entry, answer, 0))
            return 0;
    }
    return 1;
}

/* Whether the list is so many of these records. */
static int lists(const struct ledger *kept, size_t count, const struct celery_record *records)
{
    return kept->count == count && memcmp(kept->records, records, count * sizeof *records) == 0;
}

/*
 * Corrects one output of a table: the entry is withdrawn and filed with another
 * value. Then what is refused. Answers 0, or prints the line at fault.
 */
static int corrected(void)
{
    static const struct celery_record filed[LISTED] = {{1, 1}, {2, 1}, {3, 0}, {0, 0}},
                                      fewer[LISTED] = {{2, 1}, {3, 0}, {0, 0}, {0, 0}},
                                      anew[LISTED] = {{2, 1}, {3, 0}, {0, 0}, {1, 0}};
    /* A record in place of the last, which is that of entry 0 with 0. */
    static const struct celery_record wrong[] = {
        {2, 1}, /* an entry twice, with its value and with another */
        {2, 0},
        {4, 0}, /* no entry */
        {256, 0},
        {65535, 0},
        {0, 2}, /* no value */
        {0, 3},
        {0, 256},
        {0, 65535},
        {0, 1}, /* a contradiction: entry 0 is always 0 */
        {1, 1}, /* another store */
    };
    static const size_t columns[LISTED] = {1, 0, 2, C};
    static const uint8_t outputs[LISTED] = {0, 0, 1, 0}, large[CELERY_D_LEN(N, M, T)] = {1, 3};
    struct ledger kept, spoiled;
    uint8_t beta[C] = {0}, y = 99;
    uint16_t steps[STEPS] = {0}, value = 999;
    size_t written = 0, bootstraps = 0, column = 999, entry, i;

    CHECK(sizeof(struct celery_record) == 4);
    begin(&kept);
    for (entry = 0; entry < LISTED; entry++)
        CHECK(withdraw_in(&kept, LISTED, entry, CELERY_NOT_LISTED, 0));
    CHECK(file_in(&kept, LISTED, 1, 1, CELERY_ACCEPTED, 1));
    CHECK(file_in(&kept, LISTED, 2, 1, CELERY_ACCEPTED, 0));
    /* Again: nothing changes. Entry 3 is free, and entry 0 implied, but neither is listed. */
    CHECK(file_in(&kept, LISTED, 1, 1, CELERY_ACCEPTED, C));
    CHECK(file_in(&kept, LISTED, 1, 0, CELERY_CONTRADICTION, 0));
    CHECK(withdraw_in(&kept, LISTED, 3, CELERY_NOT_LISTED, 0));
    CHECK(withdraw_in(&kept, LISTED, 0, CELERY_NOT_LISTED, 0));
    CHECK(lists(&kept, 2, filed));
    /* The freed record is zeros, and those behind it are as they were. */
    CHECK(withdraw_in(&kept, LISTED, 2, CELERY_ACCEPTED, 1));
    CHECK(lists(&kept, 1, filed) && kept.records[1].entry == 0 && kept.records[1].value == 0);
    CHECK(all_are((const uint8_t *)(kept.records + 2), 2 * sizeof *kept.records, 0xA5));
    CHECK(file_in(&kept, LISTED, 2, 1, CELERY_ACCEPTED, 0));
    CHECK(file_in(&kept, LISTED, 3, 0, CELERY_ACCEPTED, 2));
    CHECK(file_in(&kept, LISTED, 0, 0, CELERY_ACCEPTED, C));
    CHECK(lists(&kept, 4, filed));
    CHECK(file_in(&kept, LISTED, 2, 1, CELERY_ACCEPTED, C));
    CHECK(file_in(&kept, LISTED, 1, 0, CELERY_CONTRADICTION, 0));
    CHECK(lists(&kept, 4, filed));
    CHECK(file_in(&kept, LISTED, 1, 2, CELERY_NO_VALUE, 0));
    CHECK(file_in(&kept, LISTED, 4, 2, CELERY_NO_ENTRY, 0));
    CHECK(withdraw_in(&kept, LISTED, 4, CELERY_NO_ENTRY, 0));

    /* Entry 1 is to be 0. */
    CHECK(withdraw_in(&kept, LISTED, 1, CELERY_ACCEPTED, 1));
    CHECK(lists(&kept, 3, fewer));
    CHECK(memcmp(kept.records, fewer, sizeof fewer) == 0);
    CHECK(withdraw_in(&kept, LISTED, 1, CELERY_NOT_LISTED, 0));
    spoiled = kept;
    CHECK(file_in(&kept, LISTED, 1, 0, CELERY_ACCEPTED, 2));
    CHECK(lists(&kept, 4, anew));
    CHECK(celery_coefficients(XOR, kept.store, STORE, beta, C) == CELERY_ACCEPTED);
    CHECK(celery_write(XOR, beta, C, steps, STEPS, &written) == CELERY_ACCEPTED);
    for (entry = 0; entry < LISTED; entry++) {
        uint8_t digits[N] = {(uint8_t)(entry / 2), (uint8_t)(entry % 2)};
        CHECK(celery_run(XOR, steps, written, digits, N, &y, &bootstraps) == CELERY_ACCEPTED);
        CHECK(y == outputs[entry]);
    }

    /* Records in another length, a count above them, and a work store in another length. */
    for (i = 0; i < LISTED; i++)
        CHECK(refused(&kept, i, CELERY_LENGTH));
    for (i = LISTED + 1; i != 0; i *= 2) {
        spoiled.count = i;
        CHECK(refused(&spoiled, LISTED, CELERY_LENGTH));
    }
    for (i = 0; i < STORE; i++) {
        CHECK(celery_file_recorded(XOR, kept.store, STORE, i ? kept.work : NULL, i, kept.records, LISTED, &kept.count, 0,
                                   0, &column) == CELERY_LENGTH);
        CHECK(celery_withdraw(XOR, kept.store, STORE, i ? kept.work : NULL, i, kept.records, LISTED, &kept.count, 0,
                              &value) == CELERY_LENGTH);
    }
    CHECK(column == 999 && value == 999 && lists(&kept, 4, anew));
    /* A count above them comes before a byte of the plan, and neither writes. */
    memset(kept.work, 0xA5, STORE);
    for (i = 0; i <= LISTED + 1; i++)
        CHECK(celery_withdraw(P, S, N, M, T, BITS, NONE, NONE, large, sizeof large, kept.store, STORE, kept.work, STORE,
                              kept.records, LISTED, &i, 1, &value) == (i > LISTED ? CELERY_LENGTH : CELERY_NO_RESIDUE));
    CHECK(i == LISTED + 2 && value == 999 && all_are(kept.work, STORE, 0xA5));

    /* Damaged records, which come before the entry and behind a damaged store. */
    for (i = 0; i < sizeof wrong / sizeof *wrong; i++) {
        spoiled.count = 3;
        spoiled.records[2] = wrong[i];
        CHECK(refused(&spoiled, LISTED, CELERY_RECORDS));
        spoiled.store[0] = 2;
        CHECK(refused(&spoiled, LISTED, CELERY_DAMAGED));
        spoiled.store[0] = 1;
    }
    /* Without entry 0 the list has the same store; without entry 3 it has not. */
    spoiled.count = 2;
    CHECK(withdraw_in(&spoiled, LISTED, 0, CELERY_NOT_LISTED, 0));
    spoiled.count = 1;
    CHECK(refused(&spoiled, LISTED, CELERY_RECORDS));
    spoiled.count = 0;
    CHECK(refused(&spoiled, LISTED, CELERY_RECORDS));

    /* A table that was filed without records, which the host writes. */
    begin(&spoiled);
    for (i = 0; i < LISTED; i++) {
        CHECK(file(spoiled.store, filed[i].entry, filed[i].value, CELERY_ACCEPTED, columns[i]));
        spoiled.records[spoiled.count++] = filed[i];
    }
    for (entry = LISTED; entry > 0; entry--)
        CHECK(withdraw_in(&spoiled, LISTED, entry - 1, CELERY_ACCEPTED, (uint16_t)((entry - 1) / 2 ^ (entry - 1) % 2)));
    CHECK(spoiled.count == 0 && all_are(spoiled.store, STORE, 0));
    CHECK(all_are((const uint8_t *)spoiled.records, sizeof spoiled.records, 0));
    return 0;
}

/* One digit of radix 5 with p = 5 and s = 5: entry x is x times the one coefficient. */
#define TIMES 5, 5, 1, 0, 0, five, sizeof five, NONE, NONE, NONE

/*
 * A withdrawn entry that the other one forces: only its old value is accepted,
 * until the other is withdrawn too. Answers 0, or prints the line at fault.
 */
static int stays_forced(void)
{
    uint8_t store[CELERY_STORE_LEN(1, 0, 0)] = {0}, work[CELERY_STORE_LEN(1, 0, 0)] = {0}, residue = 255;
    struct celery_record records[5] = {{0, 0}};
    uint16_t old = 999;
    size_t count = 0, column = 999, value;
#define KEPT store, sizeof store, work, sizeof work, records, 5, &count

    CHECK(celery_file_recorded(TIMES, KEPT, 1, 2, &column) == CELERY_ACCEPTED && column == 0);
    CHECK(celery_file_recorded(TIMES, KEPT, 3, 1, &column) == CELERY_ACCEPTED && column == 1);
    CHECK(celery_withdraw(TIMES, KEPT, 3, &old) == CELERY_ACCEPTED && old == 1 && count == 1);

    /* Entry 1 is 2, so that entry 3 is 6, which is 1. */
    CHECK(celery_settle(TIMES, store, sizeof store, 3, &residue, &column) == CELERY_ACCEPTED);
    CHECK(residue == 1 && column == 1);
    for (value = 0; value < 7; value++)
        if (value != old)
            CHECK(celery_file_recorded(TIMES, KEPT, 3, value, &column) ==
                  (value < 5 ? CELERY_CONTRADICTION : CELERY_NO_VALUE));
    CHECK(celery_file_recorded(TIMES, KEPT, 3, old, &column) == CELERY_ACCEPTED && count == 2);
    CHECK(celery_withdraw(TIMES, KEPT, 3, &old) == CELERY_ACCEPTED && count == 1);

    /* Without entry 1 it is free, and then decides entry 1: with 2 for entry 3 the coefficient is 4. */
    CHECK(celery_withdraw(TIMES, KEPT, 1, &old) == CELERY_ACCEPTED && old == 2 && count == 0);
    CHECK(celery_settle(TIMES, store, sizeof store, 3, &residue, &column) == CELERY_ACCEPTED);
    CHECK(residue == 5 && column == 0);
    CHECK(celery_file_recorded(TIMES, KEPT, 3, 2, &column) == CELERY_ACCEPTED && column == 0);
    CHECK(celery_file_recorded(TIMES, KEPT, 1, 2, &column) == CELERY_CONTRADICTION);
    CHECK(celery_file_recorded(TIMES, KEPT, 1, 4, &column) == CELERY_ACCEPTED && column == 1 && count == 2);
#undef KEPT
    return 0;
}

/*
 * Empty parts as null pointers: those of a plan without links and products, an
 * empty list of steps, and any part of a call that is refused for its length.
 * A refused call leaves the single numbers as they were. Answers 0, or prints
 * the line at fault.
 */
static int empty_parts(void)
{
    enum { L = CELERY_COLUMNS(N, 0, 0), LAST = CELERY_STEPS_LEN(N, 0, 0) };
    uint8_t store[CELERY_STORE_LEN(N, 0, 0)] = {0}, row[L] = {0}, beta[L] = {0};
    uint8_t digits[N] = {1, 1}, y = 99, residue = 99;
    uint16_t steps[LAST] = {0}, value = 999;
    struct celery_record records[4] = {{0, 0}};
    size_t column = 999, written = 999, bootstraps = 999, norm = 999, count = 0;

    CHECK(celery_check(BARE) == CELERY_ACCEPTED);
    CHECK(celery_check(P, S, N, 0, 0, BITS, NULL, 0, NULL, 0, NULL, 0) == CELERY_ACCEPTED);
    CHECK(celery_check(P, S, N, 0, 1, BITS, NULL, 0, NULL, 0, NULL, 0) == CELERY_LENGTH);
    CHECK(celery_check(P, S, N, 1, 0, BITS, NULL, 0, NULL, 0, NULL, 0) == CELERY_LENGTH);
    CHECK(celery_check(P, S, N, 0, 0, NULL, 0, NULL, 0, NULL, 0, NULL, 0) == CELERY_LENGTH);

    /* Where the plan asks for more, an empty part is refused for its length, and an empty step slice for its room. */
    CHECK(celery_row(BARE, 3, NULL, 0) == CELERY_LENGTH);
    CHECK(celery_test(BARE, NULL, 0) == CELERY_LENGTH);
    CHECK(celery_file(BARE, NULL, 0, 3, 1, &column) == CELERY_LENGTH);
    CHECK(celery_coefficients(BARE, NULL, 0, beta, L) == CELERY_LENGTH);
    CHECK(celery_coefficients(BARE, store, sizeof store, NULL, 0) == CELERY_LENGTH);
    CHECK(celery_settle(BARE, NULL, 0, 3, &residue, &column) == CELERY_LENGTH);
    CHECK(celery_general(BARE, NULL, 0, &residue) == CELERY_LENGTH);
    CHECK(celery_file_recorded(BARE, NULL, 0, NULL, 0, NULL, 0, &count, 3, 1, &column) == CELERY_LENGTH);
    CHECK(celery_withdraw(BARE, NULL, 0, NULL, 0, NULL, 0, &count, 3, &value) == CELERY_LENGTH);
    CHECK(celery_withdraw(BARE, store, sizeof store, NULL, 0, records, 4, &count, 3, &value) == CELERY_LENGTH);
    CHECK(celery_check_writing(BARE, NULL, 0, steps, LAST) == CELERY_LENGTH);
    CHECK(celery_check_writing(BARE, beta, L, NULL, 0) == CELERY_NO_ROOM);
    CHECK(celery_write(BARE, NULL, 0, steps, LAST, &written) == CELERY_LENGTH);
    CHECK(celery_write(BARE, beta, L, NULL, 0, &written) == CELERY_NO_ROOM);
    CHECK(celery_run(BARE, NULL, 0, NULL, 0, &y, &bootstraps) == CELERY_LENGTH);
    CHECK(celery_worst_norm(BARE, NULL, 0, &norm) == CELERY_LENGTH);
    CHECK(column == 999 && written == 999 && y == 99 && bootstraps == 999 && norm == 999 && residue == 99);
    CHECK(count == 0 && value == 999);

    /* Entry 3 has the digits 1 1, and its value 1 makes beta 1 0. */
    CHECK(celery_row(BARE, 3, row, L) == CELERY_ACCEPTED);
    CHECK(row[0] == 1 && row[1] == 1);
    CHECK(celery_file(BARE, store, sizeof store, 3, 1, &column) == CELERY_ACCEPTED);
    CHECK(column == 0);
    CHECK(celery_settle(BARE, store, sizeof store, 3, &residue, &column) == CELERY_ACCEPTED);
    CHECK(residue == 1 && column == L);
    CHECK(celery_settle(BARE, store, sizeof store, 2, &residue, &column) == CELERY_ACCEPTED);
    CHECK(residue == P && column == 1);
    CHECK(celery_test(BARE, store, sizeof store) == CELERY_ACCEPTED);
    CHECK(celery_coefficients(BARE, store, sizeof store, beta, L) == CELERY_ACCEPTED);
    CHECK(beta[0] == 1 && beta[1] == 0);
    CHECK(celery_worst_norm(BARE, beta, L, &norm) == CELERY_ACCEPTED);
    CHECK(norm == 1);
    CHECK(celery_write(BARE, beta, L, steps, LAST, &written) == CELERY_ACCEPTED);
    CHECK(written == LAST);
    CHECK(celery_run(BARE, steps, written, digits, N, &y, &bootstraps) == CELERY_ACCEPTED);
    CHECK(y == 1 && bootstraps == 0);

    /* An empty list of steps answers 0 and 0. */
    y = 99, bootstraps = 999;
    CHECK(celery_run(BARE, NULL, 0, digits, N, &y, &bootstraps) == CELERY_ACCEPTED);
    CHECK(y == 0 && bootstraps == 0);
    return 0;
}

int main(void)
{
    static const uint8_t off[C] = {0, 1, 1, 0};
    uint8_t store[STORE] = {0}, kept[STORE] = {0}, row[C] = {0}, beta[C] = {0};
    uint16_t steps[ROOM] = {0};
    size_t written = 0, norm = 0, entry, i;

    CHECK(celery_check(XOR) == CELERY_ACCEPTED);
    CHECK(celery_check(9, S, N, M, T, BITS, NONE, NONE, d, sizeof d) == CELERY_NO_PRIME);
    CHECK(celery_check(P, S, N, M, T, BITS, NONE, NONE, d, 1) == CELERY_LENGTH);
    CHECK(celery_check(P, S, N, M, T, NONE, NONE, NONE, d, sizeof d) == CELERY_LENGTH);

    /* In an empty store only entry 0 is settled, whose row is all zero. */
    CHECK(settle(store, 0, CELERY_ACCEPTED, 0, C));
    CHECK(settle(store, 1, CELERY_ACCEPTED, P, 1));
    CHECK(settle(store, 2, CELERY_ACCEPTED, P, 0));
    CHECK(settle(store, 3, CELERY_ACCEPTED, P, 0));
    CHECK(file(store, 0, 0, CELERY_ACCEPTED, C));
    CHECK(file(store, 1, 1, CELERY_ACCEPTED, 1));
    CHECK(file(store, 2, 1, CELERY_ACCEPTED, 0));
    /* What is free is filed in the column told, and settled from then on. */
    CHECK(settle(store, 3, CELERY_ACCEPTED, P, 2));
    CHECK(file(store, 3, 0, CELERY_ACCEPTED, 2));
    for (entry = 0; entry < 4; entry++)
        CHECK(settle(store, entry, CELERY_ACCEPTED, (uint8_t)(entry / 2 ^ entry % 2), C));
    memcpy(kept, store, sizeof store);
    CHECK(settle(store, 4, CELERY_NO_ENTRY, 0, 0));
    CHECK(file(store, 3, 1, CELERY_CONTRADICTION, 0));
    CHECK(file(store, 4, 0, CELERY_NO_ENTRY, 0));
    CHECK(file(store, 0, 2, CELERY_NO_VALUE, 0));
    CHECK(memcmp(kept, store, sizeof store) == 0);
    CHECK(celery_test(XOR, store, sizeof store) == CELERY_ACCEPTED);

    CHECK(celery_coefficients(XOR, store, sizeof store, beta, sizeof beta) == CELERY_ACCEPTED);
    CHECK(memcmp(beta, off, sizeof beta) == 0);
    CHECK(celery_worst_norm(XOR, beta, sizeof beta, &norm) == CELERY_ACCEPTED);
    CHECK(norm == 2);

    for (i = 0; i < ROOM; i++)
        steps[i] = 777;
    CHECK(celery_check_writing(XOR, beta, sizeof beta, steps, STEPS - 1) == CELERY_NO_ROOM);
    CHECK(celery_check_writing(XOR, beta, sizeof beta, steps, ROOM) == CELERY_ACCEPTED);
    CHECK(celery_write(XOR, beta, sizeof beta, steps, ROOM, &written) == CELERY_ACCEPTED);
    CHECK(written == STEPS);
    CHECK(memcmp(steps, program, sizeof program) == 0);
    for (i = STEPS; i < ROOM; i++)
        CHECK(steps[i] == 777);

    for (entry = 0; entry < 4; entry++) {
        uint8_t digits[N] = {(uint8_t)(entry / 2), (uint8_t)(entry % 2)}, y = 99;
        size_t bootstraps = 99;
        CHECK(celery_row(XOR, entry, row, sizeof row) == CELERY_ACCEPTED);
        CHECK(memcmp(row + C - N, digits, sizeof digits) == 0);
        CHECK(celery_run(XOR, steps, written, digits, N, &y, &bootstraps) == CELERY_ACCEPTED);
        CHECK(y == (digits[0] ^ digits[1]));
        CHECK(bootstraps == M + 2 * T);
    }

    /* The store of the start is not in reduced form once a byte is damaged. */
    store[0] = 2;
    CHECK(celery_test(XOR, store, sizeof store) == CELERY_DAMAGED);
    CHECK(settle(store, 0, CELERY_DAMAGED, 0, 0));
    CHECK(settle(store, 4, CELERY_DAMAGED, 0, 0)); /* 6 before 7 */

    if (days_of_a_month() != 0 || settled_beyond_s() != 0 || empty_parts() != 0 || read_back() != 0 || moved() != 0 ||
        general_plans() != 0 || corrected() != 0 || stays_forced() != 0)
        return 1;

    puts("ok");
    return 0;
}
