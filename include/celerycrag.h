/*
 * celerycrag.h: look-up tables for data that stays encrypted under TFHE.
 *
 * The C interface of libcelerycrag.a, a library whose every function is proved
 * to meet its contract. It works in the clear: it files tables under plans and
 * writes programs of sums and bootstraps; encryption, keys, noise and the
 * search for plans are the host's. It allocates nothing, keeps nothing between
 * calls, and calls may run at the same time where none writes what another is
 * lent. The archive is for x86-64 Linux. Link with -lcelerycrag; it needs
 * nothing but the C library.
 *
 *
 * THE PLAN
 *
 * Every call is first lent a plan: five numbers and four parts.
 *
 *   p         an odd prime from 3 to 251
 *   s         2 to p; the values of a table that is filed are below s
 *   n         the number of input digits, at least 1
 *   m         the number of links
 *   t         the number of products, at most 32
 *   radices   the radix of each digit, n of them, each 2 to p
 *   weights   link k (from 0) has n + k weights, links in order
 *   tables    p values for each link, for the sums 0 to p-1 in order
 *   d         t rows of L weights, the fixed halves of the products
 *
 * L = n + m, the number of variables, is at most 64. C = (t + 1) L, the number
 * of columns, is at most 1,024. The product of the radices, which is the number
 * of entries, is at most 4,096. All bytes of weights, tables and d are below p.
 *
 * Variables 0 to n-1 are the digits of an entry, x_0 the most significant:
 * digit j of entry i is i divided by the product of the radices behind radix j,
 * rounded down, modulo radix j. So digit j is below radix j. With the radices
 * 12 2, for a month and a bit, there are 24 entries, and entry 23 has the
 * digits 11 1. A radix may be above s or below it.
 *
 * Variable n+k is table k at the sum of link k's weights, each times its
 * variable, modulo p. A coefficient list, beta, has C residues: L for each
 * product and L more. The value that it gives an entry is, modulo p, the sum
 * over the products of (beta row times the variables) times (d row times the
 * variables), plus the last beta row times the variables.
 *
 *
 * GENERAL PLANS
 *
 * A plan is general when it suits every table: for each table with values below
 * s there is a beta that reproduces it. That is so exactly when the rows of all
 * entries are independent, whatever s is. celery_general tells.
 *
 * Not every shape has such a plan. Without links the row of entry 0 is all zero,
 * so m has to be at least 1. And the entries can be at most CELERY_MOST_NEW: with
 * q the smaller of t and L,
 *
 *   (q + 1) L - q (q - 1) / 2
 *
 * That is C for t = 0 and t = 1, and less for every other t. For the fixed halves
 * a and b of any two products make columns dependent: the sum of b_j times column
 * j of the one is the sum of a_j times column j of the other. So never are more
 * entries new to a store, whatever is filed. With L = 64 the number is 64 for
 * t = 0, 253 for t = 3, and 919 for t = 15, where C is 1,024. A plan with more
 * entries files the tables that it suits, as any other.
 *
 *
 * THE STORE
 *
 * A store keeps what the entries filed so far ask of beta, as C equations: row
 * q is C coefficients and a right-hand side, and left of column q its
 * coefficients are zero. So the bytes of row q are its columns q to C-1 and
 * then the right-hand side, C + 1 - q of them, and the rows follow one another.
 * Row q begins at byte
 *
 *   q (C + 1) - q (q - 1) / 2
 *
 * and in all there are C (C + 1) / 2 + C bytes, CELERY_STORE_LEN. An empty
 * store is all zeros. A store is in reduced form when all bytes are below p,
 * and row q is either all zero, or has a 1 in column q and column q is zero in
 * every other row. All that filing and withdrawing leave is in reduced form.
 *
 * Stores on disk. Before this layout a store was C rows of C + 1 bytes each,
 * with the zeros left of column q: C (C + 1) bytes, CELERY_FULL_STORE_LEN. That
 * is called the full layout here. A store that was kept so is moved once by
 * celery_to_half, and celery_to_full moves it back for a reader of the full
 * layout; nothing is lost either way. Every other call takes the layout above
 * alone: a store in the full layout is refused there for its length (4), so
 * under its own plan it cannot be mistaken. Where C is 1 the two layouts are the
 * same two bytes, and there is nothing to move. Neither layout says which plan
 * it belongs to; keep the plan with it.
 *
 *
 * RECORDS
 *
 * A store cannot tell which entries it was made of. Who wants to correct a single
 * output lends a list of records beside the store: an entry and its value each, as
 * many records as the plan has entries, and a count. The records before the count
 * are the list, in the order in which the entries were kept; what is behind the
 * count does not matter. celery_file_recorded files an entry and puts it at the
 * end of the list, where it is not there yet. celery_withdraw takes an entry out,
 * and leaves the store that filing the remaining list on an empty one gives. So an
 * entry that was implied when it was filed can carry the store later: where the
 * entry that was new is withdrawn, the implied one takes its place.
 *
 * It begins with an empty store and a count of 0. From there on the store, the
 * records and the count are handed from call to call as they were left. Then the
 * entries kept are those listed: those filed and not withdrawn since. Where no
 * other cause is met, a filing is refused with 9 exactly when no beta reproduces it
 * together with the entries kept before it; and the coefficients of the store
 * reproduce all entries kept after the last call. A filing that was accepted has
 * been kept, though its entry be withdrawn later.
 *
 * A withdrawn entry can be filed with another value only where the remaining
 * entries leave it open. celery_settle on the store tells. Free: any value below s
 * will do. Forced: that residue alone, if it is below s; every other value below s
 * is refused with 9. Then either other entries are to be corrected too: withdraw
 * those of which the entry's row is a combination, until it is free, which it never
 * is where its row is all zero. Or the table needs another plan, with more columns;
 * under a general plan every entry that is not listed is free, see GENERAL PLANS.
 * With its old value the entry can always be filed again.
 *
 * The list is tested on each call, against the store (16): no entry is named
 * twice, each is accepted when they are filed in order on an empty store, and that
 * leaves the lent store. Any such list is taken, however it came to be: a large
 * table may be filed with celery_file first, and the records written by the host.
 *
 *
 * WHAT IS LENT
 *
 * A part is a pointer and a length, counted in its own elements. So many
 * elements must be there, aligned for their type and initialised, also where
 * the call only writes them. Where the length is 0 any pointer will do, a null
 * pointer too: an empty part is NULL and 0 in C, data() and size() of an empty
 * std::vector in C++. Nothing is read or written through it.
 *
 * A single number that a call writes (column, residue, general, count, value,
 * written, y, bootstraps, norm, line) is lent by a pointer that is never null, also
 * where the call is refused. The number there must be aligned for its type and
 * initialised. Of these count alone is read too.
 *
 * What a call writes must overlap nothing else that it is lent, and nothing
 * else may write to what it is lent until it returns. Parts that are only read
 * may overlap. Beyond that any number, length and byte may be lent: the library
 * tests all of them, and reads and writes nothing outside what it is lent.
 *
 *
 * REFUSALS
 *
 * Each call answers 0 where it accepts, else the number of the first cause
 * that it meets, in the order of the numbers, but that 16 is asked between 6 and
 * 7; lengths of all parts (4) come before values (5). The radices are judged as
 * lent: a bad one (2) and a product above 4,096 (3) come first also where there
 * are not n of them (4). A refused call leaves all that it was lent as it was, the
 * single numbers too, with two exceptions. A refusal by 13, or by 15 for a text,
 * tells its line in line, the one number that a refusal writes. And the work store
 * that is lent beside records is all zeros after every call that none of the
 * causes 1 to 5 refuses, be it accepted or not. All else stays as it was.
 *
 *
 * COST
 *
 * Each call tests the plan first, which reads its parts once, the radices
 * twice: less than 19,000 bytes under every plan that is accepted. The cost
 * given with a call is what comes on top where it is accepted: passes over what
 * is lent, multiplications, each with the reduction of its product by a
 * reciprocal of p where there is one, and divisions. What is done once for each
 * digit, link, product or row is left out.
 *
 * The two calls with records copy these before the plan is tested, and so before
 * cause 1: all that are lent, those behind the count too, up to 4,096, and what is
 * lent beyond is stepped over one by one. So every refusal of theirs has cost that
 * much: some microseconds for 4,096 records.
 *
 *
 * STACK
 *
 * The library works on the stack of its caller. CELERY_STACK_.. below has the most
 * that each call takes on any of its ways, its arguments included: measured, and
 * rounded up by 30 to 230 bytes, against what another compiler of the host may
 * take for the arguments. A thread that makes the call needs so much beyond what
 * the host takes up to there. The C library's memcpy and memset, which are all that
 * is called outside, are in it, but not the loader: in a program that binds
 * functions when they are first called, it takes stack of its own at the first call
 * of each of the two, 1,300 to 1,600 bytes as measured on one machine; how much
 * depends on the loader and the processor. Linked with -z now, it takes none.
 */
#ifndef CELERYCRAG_H
#define CELERYCRAG_H

#include <stddef.h>
#include <stdint.h>

#ifdef __cplusplus
extern "C" {
#endif

/* The refusals by name. */
enum celery_refusal {
    CELERY_ACCEPTED = 0,
    CELERY_NO_PRIME = 1,      /* p is no odd prime from 3 to 251 */
    CELERY_RADIX = 2,         /* s or a radix is below 2 or above p */
    CELERY_RANGE = 3,         /* n, L, t, C or the product of the radices is out of range */
    CELERY_LENGTH = 4,        /* a part has another length than the plan says, or a count is above its list */
    CELERY_NO_RESIDUE = 5,    /* a weight, table value or given beta is not below p */
    CELERY_DAMAGED = 6,       /* the store is not in reduced form */
    CELERY_NO_ENTRY = 7,      /* the entry is not below the product of the radices */
    CELERY_NO_VALUE = 8,      /* the value is not below s */
    CELERY_CONTRADICTION = 9, /* no beta reproduces the entry with all kept before */
    CELERY_NO_ROOM = 10,      /* the step slice is shorter than 4 times the step count */
    CELERY_STEPS = 11,        /* the step list is malformed */
    CELERY_NO_DIGIT = 12,     /* a digit is not below its own radix */
    CELERY_MALFORMED = 13,    /* a line of the text is malformed or missing */
    /* 14 is the filing program's alone: no call answers it. */
    CELERY_NOT_WRITTEN = 15,  /* no coefficients make the writer give exactly this */
    CELERY_RECORDS = 16,      /* the records are not those of the store */
    CELERY_NOT_LISTED = 17    /* the withdrawn entry is not listed */
};

/*
 * Lengths under a plan whose numbers pass the causes 1 to 3. They are constant
 * where the numbers are, so arrays can be declared with them, but for a length
 * that is 0: of weights and tables without links, of d without products.
 */
#define CELERY_VARIABLES(n, m) ((n) + (m))
#define CELERY_COLUMNS(n, m, t) (((t) + 1) * CELERY_VARIABLES(n, m))
#define CELERY_RADICES_LEN(n) (n)
#define CELERY_WEIGHTS_LEN(n, m) ((m) * (n) + (m) * ((m) - 1) / 2)
#define CELERY_TABLES_LEN(p, m) ((p) * (m))
#define CELERY_D_LEN(n, m, t) ((t) * CELERY_VARIABLES(n, m))
#define CELERY_STORE_LEN(n, m, t)                                        \
    (CELERY_COLUMNS(n, m, t) * (CELERY_COLUMNS(n, m, t) + 1) / 2 +       \
     CELERY_COLUMNS(n, m, t))
/* A store in the full layout, for celery_to_half and celery_to_full alone. */
#define CELERY_FULL_STORE_LEN(n, m, t) \
    (CELERY_COLUMNS(n, m, t) * (CELERY_COLUMNS(n, m, t) + 1))
/*
 * The most entries that can be new in a store, in any list of filings. A plan
 * with more entries is never general, see GENERAL PLANS.
 */
#define CELERY_MOST_NEW(n, m, t)                                         \
    ((t) < CELERY_VARIABLES(n, m)                                        \
         ? CELERY_COLUMNS(n, m, t) - (t) * ((t) - 1) / 2                 \
         : CELERY_VARIABLES(n, m) * (CELERY_VARIABLES(n, m) + 3) / 2)
/* The number of steps of a written program, four 16-bit numbers each. */
#define CELERY_STEP_COUNT(n, m, t)                                       \
    ((m) * ((n) + 2) + (m) * ((m) - 1) / 2 + 1 +                         \
     (t) * (2 * CELERY_VARIABLES(n, m) + 12) + CELERY_VARIABLES(n, m))
#define CELERY_STEPS_LEN(n, m, t) (4 * CELERY_STEP_COUNT(n, m, t))

/* The stack that each call takes at most, in bytes, see STACK. */
enum celery_stack {
    CELERY_STACK_CHECK = 600,
    CELERY_STACK_ROW = 700,
    CELERY_STACK_TEST = 1600,
    CELERY_STACK_FILE = 10100,
    CELERY_STACK_FILE_RECORDED = 30900,
    CELERY_STACK_WITHDRAW = 30900,
    CELERY_STACK_COEFFICIENTS = 1600,
    CELERY_STACK_SETTLE = 8900,
    CELERY_STACK_GENERAL = 10000,
    CELERY_STACK_TO_HALF = 1800,
    CELERY_STACK_TO_FULL = 1700,
    CELERY_STACK_CHECK_WRITING = 700,
    CELERY_STACK_WRITE = 700,
    CELERY_STACK_RUN = 900,
    CELERY_STACK_WORST_NORM = 700,
    CELERY_STACK_READ_STEPS = 36200,
    CELERY_STACK_READ_LISTING = 70800
};

/* An entry and its value, see RECORDS. */
struct celery_record {
    uint16_t entry;
    uint16_t value;
};

/* The parameters by which every call is lent its plan. */
#define CELERY_PLAN                                          \
    size_t p, size_t s, size_t n, size_t m, size_t t,        \
    const uint8_t *radices, size_t radices_len,              \
    const uint8_t *weights, size_t weights_len,              \
    const uint8_t *tables, size_t tables_len,                \
    const uint8_t *d, size_t d_len

/*
 * Checks a plan.
 *
 * Causes:  1 2 3 4 5.
 * Writes:  nothing.
 * Cost:    the test of the plan alone.
 */
uint8_t celery_check(CELERY_PLAN);

/*
 * The row of an entry: C residues. Row times beta, summed modulo p, is the
 * value that beta gives the entry. The last L residues are the variables, and
 * the first n of those the digits, which celery_run takes.
 *
 * Lent:    entry, any number; row, C bytes, whose old values do not matter.
 * Causes:  1 2 3 4 5, 7.
 * Writes:  all of row.
 * Cost:    one multiplication for each link weight, one for each byte of d, and
 *          one for each byte of row, those of the last L too.
 */
uint8_t celery_row(CELERY_PLAN, size_t entry, uint8_t *row, size_t row_len);

/*
 * Tests a store for reduced form, see THE STORE.
 *
 * Lent:    store, C (C + 1) / 2 + C bytes.
 * Causes:  1 2 3 4 5, 6.
 * Writes:  nothing.
 * Cost:    one pass over the store, row 0 first, each row read once, to the end
 *          also where it is damaged. A row without a pivot is only read; one with
 *          a pivot is compared with the rows above it too, which takes about twice
 *          as long. On the machine of docs/BENCHMARKS.md, with the plan's own test
 *          left out, an empty store takes about 0.14 us at C = 64, 0.85 us at 256
 *          and 9.3 us at 1,024, a full one 0.29, 1.8 and 18 us.
 */
uint8_t celery_test(CELERY_PLAN, const uint8_t *store, size_t store_len);

/*
 * Files an entry with its value: accepted, the entry is kept, and the store is
 * afterwards the one reduced form whose rows span the same equations as the
 * old store and the entry. Where no other cause is met, it is refused with 9
 * exactly when no beta reproduces it together with all that the store holds.
 *
 * Lent:    store, C (C + 1) / 2 + C bytes; entry and value, any numbers;
 *          column.
 * Causes:  1 2 3 4 5, 6, 7, 8, 9.
 * Writes:  *column: the column of the new row's pivot where the entry was new
 *          to the store, and C, which is no column, where the store implied
 *          it. The store, where the entry was new; else it keeps its bytes.
 * Cost:    celery_test and celery_row, then at most about C^2 / 2
 *          multiplications to compare the entry with the store, and at most
 *          about C^2 / 4 more where it is new.
 */
uint8_t celery_file(CELERY_PLAN, uint8_t *store, size_t store_len,
                    size_t entry, size_t value, size_t *column);

/*
 * Files an entry with its value as celery_file does, beside records, see RECORDS.
 * Accepted, an entry that is not listed joins the end of the list with its value,
 * also where the store implied it. Filing a listed entry again with its value finds
 * it implied and leaves the list; every other value below s is refused with 9, and
 * s and more with 8.
 *
 * The list is refused with 16 where it names an entry twice, or where an entry of
 * it is refused when they are filed in order on the work store, which is cleared
 * before, or where that does not leave the lent store. So is an entry there that is
 * none, and a value that is not below s.
 *
 * Lent:    store and work, C (C + 1) / 2 + C bytes each, the old values of work
 *          do not matter; records, as many as the plan has entries, of which
 *          those before *count are the list; count, any number, a count above
 *          the number of records is refused with 4; entry and value, any
 *          numbers; column.
 * Causes:  1 2 3 4 5, 6, 16, 7, 8, 9, in this order.
 * Writes:  *column, and the store, as celery_file does. Where the entry was not
 *          listed, the record behind the list, and *count, which is then one more.
 *          All of work: it is all zeros after every call that none of the causes
 *          1 to 5 refuses, also where another does.
 * Cost:    celery_test and celery_file's own work, and the whole list is filed once
 *          on work, for each entry what celery_file costs without celery_test: up
 *          to a few milliseconds for some hundred entries, and up to a few tenths
 *          of a second for 4,096 with C = 1,024. A host that fills a large table
 *          may file it with celery_file, and write the records itself.
 */
uint8_t celery_file_recorded(CELERY_PLAN, uint8_t *store, size_t store_len,
                             uint8_t *work, size_t work_len,
                             struct celery_record *records, size_t records_len,
                             size_t *count, size_t entry, size_t value,
                             size_t *column);

/*
 * Withdraws a listed entry, see RECORDS: its record is removed, those behind it
 * close the gap, the record that is freed at the end of the list becomes zeros, and
 * the store becomes the one that filing the remaining list on an empty one gives.
 *
 * Lent:    store, work, records and count as for celery_file_recorded; entry, any
 *          number; value.
 * Causes:  1 2 3 4 5, 6, 16, 7, 17, in this order.
 * Writes:  *value: the value withdrawn. The store. The records from that of the
 *          entry to the end of the list, and *count, which is then one less. All
 *          of work: it is all zeros after every call that none of the causes 1 to
 *          5 refuses, also where another does.
 * Cost:    celery_test, and the list is filed twice: on work, to test it, and
 *          without the entry on the store, once that is cleared. About twice what
 *          celery_file_recorded costs.
 */
uint8_t celery_withdraw(CELERY_PLAN, uint8_t *store, size_t store_len,
                        uint8_t *work, size_t work_len,
                        struct celery_record *records, size_t records_len,
                        size_t *count, size_t entry, uint16_t *value);

/*
 * Reads the coefficients off a store: coefficient q is the right-hand side of
 * row q. They reproduce every entry kept.
 *
 * Lent:    store, C (C + 1) / 2 + C bytes; beta, C bytes, whose old values do
 *          not matter.
 * Causes:  1 2 3 4 5, 6.
 * Writes:  all of beta.
 * Cost:    celery_test, then a copy of C bytes.
 */
uint8_t celery_coefficients(CELERY_PLAN, const uint8_t *store, size_t store_len,
                            uint8_t *beta, size_t beta_len);

/*
 * Tells whether an entry is settled by what the store holds, be it kept or not.
 *
 * Forced: all beta that reproduce the store give the entry one residue. Filing
 * it with that value finds it implied, every other value below s is refused with
 * 9, and s and more with 8. Of a kept entry it is the value. The residue may be s
 * or more; then every value is refused. An entry whose row is all zero is forced
 * to 0 by any store.
 *
 * Free: they do not. Filing the entry finds it new, whatever the value below s,
 * with its pivot in the column told here: the first in which its row is not zero
 * once the rows of the store have cleared it.
 *
 * Lent:    store, C (C + 1) / 2 + C bytes; entry, any number; residue; column.
 * Causes:  1 2 3 4 5, 6, 7.
 * Writes:  *residue and *column, both. Forced: the residue, and C, which is no
 *          column. Free: p, which is no residue, and the column.
 * Cost:    celery_test and celery_row. Then the columns without a pivot are
 *          looked at from the left, for at most 4 C multiplications, and C more
 *          for a residue. Only where these columns are too many to tell by that
 *          is the whole row cleared, for at most about C^2 / 2 more, as
 *          celery_file does to compare an entry with the store.
 */
uint8_t celery_settle(CELERY_PLAN, const uint8_t *store, size_t store_len,
                      size_t entry, uint8_t *residue, size_t *column);

/*
 * Tells whether the plan is general: whether every table with values below s has
 * coefficients, see GENERAL PLANS. Each entry is filed with the value 0 in the
 * work store, which is cleared before, and the answer is yes when each was new.
 *
 * Lent:    work, C (C + 1) / 2 + C bytes, whose old values do not matter;
 *          general.
 * Causes:  1 2 3 4 5.
 * Writes:  *general: 1 for yes, 0 for no. All of work: it is all zeros after the
 *          call, an empty store.
 * Cost:    work is cleared twice. Between, for each entry up to the first that is
 *          not new, what celery_file costs without celery_test: the row, at most
 *          about C^2 / 2 multiplications to compare it with what was filed, and
 *          at most about C^2 / 4 more. No entry is filed where there are more of
 *          them than CELERY_MOST_NEW.
 */
uint8_t celery_general(CELERY_PLAN, uint8_t *work, size_t work_len,
                       uint8_t *general);

/*
 * Moves a store from the full layout, C rows of C + 1 bytes, to the layout that
 * all other calls take. One that is not in reduced form is refused with 6; in
 * the full layout that includes one in which a row q has anything but zeros
 * left of column q.
 *
 * Lent:    full, C (C + 1) bytes; half, C (C + 1) / 2 + C bytes, whose old
 *          values do not matter.
 * Causes:  1 2 3 4 5, 6. Each of the two lengths is tested (4).
 * Writes:  all of half.
 * Cost:    the test reads each row of full once, row 0 first, to the end also
 *          where it is damaged; then a copy of half's length.
 */
uint8_t celery_to_half(CELERY_PLAN, const uint8_t *full, size_t full_len,
                       uint8_t *half, size_t half_len);

/*
 * Moves a store back to the full layout. What is moved there and back is the
 * same byte by byte, from either side.
 *
 * Lent:    half, C (C + 1) / 2 + C bytes; full, C (C + 1) bytes, whose old
 *          values do not matter.
 * Causes:  1 2 3 4 5, 6. Each of the two lengths is tested (4).
 * Writes:  all of full, the zeros left of column q in each row q too.
 * Cost:    celery_test, then each byte of full is written once.
 */
uint8_t celery_to_full(CELERY_PLAN, const uint8_t *half, size_t half_len,
                       uint8_t *full, size_t full_len);

/*
 * Answers what celery_write answers on the same arguments, and writes nothing.
 *
 * Lent:    beta, C bytes below p; steps, any number of numbers, of which only
 *          the length matters.
 * Causes:  1 2 3 4 5, 10.
 * Writes:  nothing.
 * Cost:    reads beta once.
 */
uint8_t celery_check_writing(CELERY_PLAN, const uint8_t *beta, size_t beta_len,
                             const uint16_t *steps, size_t steps_len);

/*
 * Writes the program of the plan and beta. A step is four numbers: kind, to,
 * from, by.
 *
 *   kind 0   register `to` becomes 0; from and by are 0
 *   kind 1   `to` gains by times `from`, modulo p
 *   kind 2   a bootstrap: `to` becomes table number `by` at `from`
 *
 * Registers 0 to L-1 are the variables; then u = L, v = L+1, a = L+2, b = L+3
 * and y = L+4, which holds the answer at the end. Tables 0 to m-1 are the link
 * tables; table m holds at z the square of z times the inverse of 4, table m+1
 * the negative of that, both modulo p. Every program of a plan has the same
 * number of steps, CELERY_STEP_COUNT, and m + 2t bootstraps.
 *
 * Lent:    beta, C bytes below p; steps, at least 4 times the step count of
 *          numbers; written.
 * Causes:  1 2 3 4 5, 10.
 * Writes:  *written: 4 times the step count. As many numbers at the beginning
 *          of steps; the rest keeps its values.
 * Cost:    reads beta twice, weights and d once more, and writes each number
 *          once.
 */
uint8_t celery_write(CELERY_PLAN, const uint8_t *beta, size_t beta_len,
                     uint16_t *steps, size_t steps_len, size_t *written);

/*
 * Runs a list of steps in the clear: registers 0 to n-1 start as the digits,
 * all others as 0. Any well-formed list may be run, an empty one too, not only
 * what celery_write wrote. A list is malformed (11) where its length is no
 * multiple of 4, a kind is above 2, a register above L+4, a kind 1 `by` not
 * below p, a table above m+1, or a kind 0 `from` or `by` not 0; the whole list
 * is tested before its first step is carried out.
 *
 * Lent:    steps, any number of numbers; digits, n bytes, the most significant
 *          first, each below its own radix; y; bootstraps.
 * Causes:  1 2 3 4 5, 11, 12.
 * Writes:  *y: register y after the last step. *bootstraps: the number of
 *          kind 2 steps carried out.
 * Cost:    reads the list twice. Once, at most 16 multiplications for the
 *          inverse of 4. A step of kind 1 is one multiplication; a bootstrap
 *          by a link's table reads it at one place, one by table m or m+1 is
 *          two multiplications and a division.
 */
uint8_t celery_run(CELERY_PLAN, const uint16_t *steps, size_t steps_len,
                   const uint8_t *digits, size_t digits_len,
                   uint8_t *y, size_t *bootstraps);

/*
 * The worst norm: the largest sum of squares of weights over the link rows,
 * the d rows and all t + 1 rows of beta. A weight w above (p-1)/2 counts as
 * w - p, so p-1 as -1. The norm is at most 1,000,000.
 *
 * Lent:    beta, C bytes below p; norm.
 * Causes:  1 2 3 4 5.
 * Writes:  *norm.
 * Cost:    reads beta once to test it; then one multiplication for each link
 *          weight, each byte of d and each coefficient.
 */
uint8_t celery_worst_norm(CELERY_PLAN, const uint8_t *beta, size_t beta_len,
                          size_t *norm);

/*
 * Reads the coefficients back from a program that was kept without its table:
 * the one beta for which celery_write gives exactly these numbers. A list that
 * celery_write gives for no beta is refused with 15: so is one of another length,
 * an empty one, and one that celery_run refuses with 11, which is not tested
 * here. Tables, radices and s do not stand in a program, so that plans which
 * differ in these alone read it alike.
 *
 * Lent:    steps, any number of numbers; beta, C bytes, whose old values do not
 *          matter.
 * Causes:  1 2 3 4 5, 15.
 * Writes:  all of beta.
 * Cost:    the program is written once more, and compared with steps in one
 *          pass.
 */
uint8_t celery_read_steps(CELERY_PLAN, const uint16_t *steps, size_t steps_len,
                          uint8_t *beta, size_t beta_len);

/*
 * The same from a listing, as the filing program prints it for a plan and beta:
 *
 *   line 1   the names bootstraps steps worst
 *   line 2   three figures: the bootstraps, the steps, the worst norm
 *   line 3   the names kind to from by
 *   the rest of the text, on each line the four numbers of a step
 *
 * The beta read is the one whose listing is exactly this text, byte by byte, the
 * three figures too.
 *
 * First all lines are judged, in order: the first that is missing or malformed
 * is refused with 13 and its number, from 1 on. A line has at most 1,024 bytes
 * with its LF, which each must have, the last too. Numbers are decimal, zero as
 * 0 and otherwise without a leading zero, one space between and nothing else on
 * the line: figures of 1 to 7 digits, the numbers of a step of 1 to 5. Of an
 * empty text line 1 is missing; no line of a step is. Then a text that is the
 * listing of no beta is refused with 15 and line 1, whichever line is wrong; so
 * is one that has a number above 65,535 in a step.
 *
 * Lent:    text, any bytes; beta, C bytes, whose old values do not matter; line.
 * Causes:  1 2 3 4 5, 13, 15.
 * Writes:  all of beta, where the call accepts. *line, where it refuses with 13
 *          or 15; else it stays as it was.
 * Cost:    one pass over the text, which judges its lines and reads their
 *          numbers; then what celery_read_steps and celery_worst_norm cost.
 *          Nothing is printed again: a number has one way to be written, so the
 *          numbers tell the text.
 */
uint8_t celery_read_listing(CELERY_PLAN, const uint8_t *text, size_t text_len,
                            uint8_t *beta, size_t beta_len, size_t *line);

#ifdef __cplusplus
}
#endif

#endif
