/*
 * table INPUT ANSWERS: fills tables of element entries with bat_table_store, and compares them with
 * outside answers. A line of INPUT is `PASS ENTRIES HEX`, the same line of ANSWERS `refused-N`, or an
 * outcome, a count, `IDENTIFIER/START/LENGTH/VALUE` for each element, and what is listed. Every table
 * is between guard entries, and starts with a different mark in each entry: entries that are not filled
 * must keep it. Ends with status 1 at the first line that differs.
 */
#include <errno.h>
#include <stdio.h>
#include <stdlib.h>
#include <string.h>

#include "bat_table.h"

/* Guard entries on each side of a table. */
#define GUARDS 8

static unsigned long line;

static void fail(const char *what)
{
    fprintf(stderr, "line %lu: %s\n", line, what);
    exit(1);
}

static FILE *open_file(const char *name)
{
    FILE *f = fopen(name, "r");

    if (f == NULL) {
        fprintf(stderr, "%s: %s\n", name, strerror(errno));
        exit(2);
    }
    return f;
}

/* The next line without its LF; 0 at the end. */
static int next_line(FILE *f, char **text, size_t *room)
{
    ssize_t n = getline(text, room, f);

    if (n < 0)
        return 0;
    if (n > 0 && (*text)[n - 1] == '\n')
        (*text)[n - 1] = 0;
    return 1;
}

/* What each octet of entry i, padding included, holds before the call. */
static int mark(size_t i)
{
    return 128 + (int)(i % 127);
}

static int is_marked(const struct bat_entry *e, size_t i)
{
    struct bat_entry want;

    memset(&want, mark(i), sizeof want);
    return memcmp(e, &want, sizeof want) == 0;
}

/* The octets of digits; `-` is none. */
static uint8_t *read_digits(const char *digits, size_t *octets)
{
    size_t n = strcmp(digits, "-") == 0 ? 0 : strlen(digits);
    uint8_t *data = malloc(n / 2 + 1);

    if (data == NULL || n % 2 != 0)
        fail("no even number of digits");
    for (size_t i = 0; i < n / 2; i++) {
        unsigned octet;

        if (sscanf(digits + 2 * i, "%2x", &octet) != 1)
            fail("no digits");
        data[i] = (uint8_t)octet;
    }
    *octets = n / 2;
    return data;
}

/* Compares the entries of the answer with those at the front of the table; answers how many there are. */
static size_t compare(const char *want, size_t got, const struct bat_entry *table, size_t entries)
{
    size_t number, count;
    char outcome[16];
    int used;

    if (sscanf(want, "refused-%zu", &number) == 1) {
        if (got != BAT_TABLE_REFUSED + number)
            fail("another refusal, or none");
        return 0;
    }
    if (sscanf(want, "%15s %zu%n", outcome, &count, &used) != 2)
        fail("no answer to compare with");
    if (got != count)
        fail("another count");
    if (entries < count)
        fail("more elements than entries");
    for (size_t i = 0; i < count; i++) {
        size_t identifier, start, length;
        int n;

        if (sscanf(want + used, " %zu/%zu/%zu/%*s%n", &identifier, &start, &length, &n) != 3)
            fail("fewer elements than their count in the answer");
        used += n;
        if (table[i].identifier != identifier || table[i].start != start || table[i].length != length)
            fail("another entry");
    }
    return count;
}

static void run(char *in, const char *want, unsigned long *filled)
{
    unsigned pass;
    size_t entries, octets, got, n;
    int used = 0;

    if (sscanf(in, "%u %zu %n", &pass, &entries, &used) != 2 || used == 0)
        fail("no case");
    if (entries > 65535)
        entries = 65535; /* no data has as many elements */

    uint8_t *data = read_digits(in + used, &octets);
    struct bat_entry *all = malloc((entries + 2 * GUARDS) * sizeof *all);

    if (all == NULL)
        fail("no memory");
    for (size_t i = 0; i < entries + 2 * GUARDS; i++)
        memset(&all[i], mark(i), sizeof all[i]);
    got = bat_table_store(data, octets, all + GUARDS, entries);
    n = compare(want, got, all + GUARDS, entries);
    for (size_t i = 0; i < entries + 2 * GUARDS; i++)
        if ((i < GUARDS || GUARDS + n <= i) && !is_marked(&all[i], i))
            fail("an entry that is not filled was altered");
    *filled += n;
    free(all);
    free(data);
}

int main(int argc, char **argv)
{
    char *in = NULL, *want = NULL;
    size_t in_room = 0, want_room = 0;
    unsigned long filled = 0;

    if (argc != 3) {
        fprintf(stderr, "usage: table INPUT ANSWERS\n");
        return 2;
    }

    FILE *input = open_file(argv[1]), *answers = open_file(argv[2]);

    while (next_line(input, &in, &in_room)) {
        line++;
        if (!next_line(answers, &want, &want_room))
            fail("no answer");
        run(in, want, &filled);
    }
    if (line == 0)
        fail("no case");
    if (next_line(answers, &want, &want_room))
        fail("an answer without a case");
    printf("table: %lu cases agree, %lu entries filled\n", line, filled);
    free(want);
    free(in);
    fclose(answers);
    fclose(input);
    return 0;
}
