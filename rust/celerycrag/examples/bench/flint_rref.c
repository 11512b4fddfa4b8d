/*
 * FLINT beside the benchmark: reads matrices from standard input and answers,
 * for each, how long nmod_mat_rref took and the reduced rows.
 *
 * Asked:     p, rows, columns (64 bits each), then rows * columns bytes.
 * Answered:  nanoseconds, rank (64 bits each), then rank * columns bytes.
 *
 * All in the byte order of the machine. Only the reduction is timed, in
 * processor time.
 */
#include <flint/nmod_mat.h>

#include <stdint.h>
#include <stdio.h>
#include <stdlib.h>
#include <time.h>

static uint64_t nanoseconds(void)
{
    struct timespec now;
    clock_gettime(CLOCK_PROCESS_CPUTIME_ID, &now);
    return (uint64_t)now.tv_sec * 1000000000u + (uint64_t)now.tv_nsec;
}

int main(void)
{
    uint64_t asked[3], answered[2];
    while (fread(asked, sizeof asked, 1, stdin) == 1) {
        size_t rows = asked[1], columns = asked[2], i, j;
        unsigned char *bytes = malloc(rows * columns);
        nmod_mat_t matrix;
        if (bytes == NULL || fread(bytes, columns, rows, stdin) != rows)
            return 1;

        nmod_mat_init(matrix, rows, columns, asked[0]);
        for (i = 0; i < rows; i++)
            for (j = 0; j < columns; j++)
                nmod_mat_entry(matrix, i, j) = bytes[i * columns + j];
        answered[0] = nanoseconds();
        answered[1] = (uint64_t)nmod_mat_rref(matrix);
        answered[0] = nanoseconds() - answered[0];

        for (i = 0; i < answered[1]; i++)
            for (j = 0; j < columns; j++)
                bytes[i * columns + j] = (unsigned char)nmod_mat_entry(matrix, i, j);
        fwrite(answered, sizeof answered, 1, stdout);
        fwrite(bytes, columns, answered[1], stdout);
        fflush(stdout);
        nmod_mat_clear(matrix);
        free(bytes);
    }
    return 0;
}
