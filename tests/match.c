/*
 * match INPUT ANSWERS: matches codec lists with bat_match_codecs, and compares what it returns and writes
 * with outside answers. A line of INPUT is `LEAD BUFFER OFFERED OWN`, the same line of ANSWERS `refused-N`,
 * or the place and length of the chosen codec and the reduced list, or `refused-4` instead of the list.
 * Every buffer is between guard octets and starts with marks, which must stay wherever nothing is written.
 * Each case is run again with the lists exchanged and the other one leading: only which list leads counts,
 * so the answer is the same. Ends with status 1 at the first line that differs.
 */
#include <errno.h>
#include <stdio.h>
#include <stdlib.h>
#include <string.h>

#include "bat_match.h"

/* Guard octets on each side of a buffer. */
#define GUARDS 64

/* The struct as the library lays it out, on x86-64. */
_Static_assert(sizeof(struct bat_match_answer) == 32, "size of struct bat_match_answer");
_Static_assert(offsetof(struct bat_match_answer, refusal) == 0, "place of refusal");
_Static_assert(offsetof(struct bat_match_answer, start) == 8, "place of start");
_Static_assert(offsetof(struct bat_match_answer, length) == 16, "place of length");
_Static_assert(offsetof(struct bat_match_answer, written) == 24, "place of written");

/* Octets, and how many there are. */
struct text {
    uint8_t *octets;
    size_t length;
};

/* What an answer says: the struct, and the reduced list. */
struct answer {
    struct bat_match_answer match;
    struct text list;
};

static unsigned long line;

static void fail(const char *what)
{
    fprintf(stderr, "line %lu: %s\n", line, what);
    exit(1);
}

static FILE *open_file(const char *name)
{
    FILE *f = fopen(name, "r");

    if (f == NULL) {
        fprintf(stderr, "%s: %s\n", name, strerror(errno));
        exit(2);
    }
    return f;
}

/* The next line without its LF; 0 at the end. */
static int next_line(FILE *f, char **text, size_t *room)
{
    ssize_t n = getline(text, room, f);

    if (n < 0)
        return 0;
    if (n > 0 && (*text)[n - 1] == '\n')
        (*text)[n - 1] = 0;
    return 1;
}

/* What octet i of a buffer and its guards holds before the call. */
static uint8_t mark(size_t i)
{
    return (uint8_t)(i * 7 + line);
}

/* Room for this many octets and no more; some, even for none. */
static struct text text_of(size_t length)
{
    struct text t = {malloc(length > 0 ? length : 1), length};

    if (t.octets == NULL)
        fail("no memory");
    return t;
}

/* The octets of digits; `-` is none. */
static struct text read_digits(const char *digits)
{
    size_t n = strcmp(digits, "-") == 0 ? 0 : strlen(digits);
    struct text t = text_of(n / 2);

    if (n % 2 != 0)
        fail("no even number of digits");
    for (size_t i = 0; i < t.length; i++) {
        unsigned octet;

        if (sscanf(digits + 2 * i, "%2x", &octet) != 1)
            fail("no digits");
        t.octets[i] = (uint8_t)octet;
    }
    return t;
}

static struct text copy(struct text t)
{
    struct text c = text_of(t.length);

    memcpy(c.octets, t.octets, t.length);
    return c;
}

static int equal(struct text a, struct text b)
{
    return a.length == b.length && memcmp(a.octets, b.octets, a.length) == 0;
}

/* The answer of a line of ANSWERS. */
static struct answer read_answer(const char *want)
{
    struct answer a = {{0, 0, 0, 0}, {NULL, 0}};
    unsigned number;
    int used = 0;

    if (sscanf(want, "refused-%u%n", &number, &used) == 1 && want[used] == 0) {
        a.match.refusal = (uint8_t)number;
        a.list = read_digits("-");
        return a;
    }
    if (sscanf(want, "%zu/%zu %n", &a.match.start, &a.match.length, &used) != 2 || used == 0)
        fail("no answer to compare with");
    if (strcmp(want + used, "refused-4") == 0) {
        a.match.refusal = 4;
        a.list = read_digits("-");
        return a;
    }
    a.list = read_digits(want + used);
    a.match.written = a.list.length;
    return a;
}

/*
 * The contents of a whole element of this identifier: what follows its length and its compatibility octets.
 * Stores the first of these, with bit 8 set.
 */
static struct text contents_of(uint8_t identifier, struct text element, uint8_t *compatibility)
{
    size_t at = 2, length;

    if (element.length < 3 || element.octets[0] != identifier)
        fail("another element than was chosen or written");
    length = element.octets[1] & 127;
    if ((element.octets[1] & 128) == 0)
        length += (size_t)(element.octets[at++] & 15) * 128;
    if (length == 0 || at + length != element.length)
        fail("an element with another length");
    *compatibility = element.octets[at] | 128;
    while (at < element.length && (element.octets[at] & 128) == 0)
        at++;
    if (at == element.length)
        fail("an element without an end of its compatibility");
    return (struct text){element.octets + at + 1, element.length - at - 1};
}

/* The part of the leading list that was returned is a codec, and the first one of the reduced list. */
static void check_chosen(struct text leading, struct bat_match_answer got, struct text list)
{
    uint8_t compatibility, written;
    struct text chosen, first, codecs;

    if (got.start > leading.length || got.length > leading.length - got.start)
        fail("the chosen codec is not in the leading list");
    chosen = contents_of(5, (struct text){leading.octets + got.start, got.length}, &compatibility);
    if (got.refusal != 0)
        return;
    codecs = contents_of(4, list, &written);
    if (codecs.length < chosen.length)
        fail("the reduced list is too short for the chosen codec");
    /* the shortest form of a length: one octet below 128 */
    first = (struct text){codecs.octets, chosen.length + (chosen.length < 127 ? 3 : 4)};
    if (first.length > codecs.length)
        fail("the reduced list is too short for the chosen codec");
    if (!equal(contents_of(5, first, &written), chosen) || written != compatibility)
        fail("the reduced list begins with another codec than the chosen one");
}

static void compare(struct bat_match_answer got, struct bat_match_answer want)
{
    if (got.refusal != want.refusal)
        fail("another refusal, or none");
    if (got.start != want.start || got.length != want.length)
        fail("another codec is chosen");
    if (got.written != want.written)
        fail("another number of octets is written");
}

/* One call. Compares what it returns and all that it could have altered. */
static void call(struct text offered, struct text own, uint8_t own_leads, size_t room, const struct answer *want)
{
    size_t whole = room + 2 * GUARDS;
    uint8_t *all = malloc(whole);
    struct text before[2] = {copy(offered), copy(own)};
    struct bat_match_answer got;

    if (all == NULL)
        fail("no memory");
    for (size_t i = 0; i < whole; i++)
        all[i] = mark(i);
    got = bat_match_codecs(offered.octets, offered.length, own.octets, own.length, own_leads, all + GUARDS, room);
    compare(got, want->match);
    if (memcmp(all + GUARDS, want->list.octets, want->list.length) != 0)
        fail("another reduced list is written");
    for (size_t i = 0; i < whole; i++)
        if ((i < GUARDS || GUARDS + want->list.length <= i) && all[i] != mark(i))
            fail("an octet that is not written was altered");
    if (!equal(offered, before[0]) || !equal(own, before[1]))
        fail("a list was altered");
    if (got.length > 0)
        check_chosen(own_leads ? own : offered, got, (struct text){all + GUARDS, got.written});
    free(before[1].octets);
    free(before[0].octets);
    free(all);
}

static void run(char *in, const char *want, unsigned long *written)
{
    /* any number but 0 */
    static const uint8_t numbers[] = {1, 2, 128, 255};
    char *fields[4];
    uint8_t set = numbers[line % 4];
    size_t room;
    int own_leads;

    for (int i = 0; i < 4; i++)
        if ((fields[i] = strtok(i == 0 ? in : NULL, " ")) == NULL)
            fail("no case");
    own_leads = strcmp(fields[0], "own") == 0;
    if ((!own_leads && strcmp(fields[0], "offered") != 0) || sscanf(fields[1], "%zu", &room) != 1)
        fail("no case");
    if (room > 65535)
        room = 65535; /* no list is as long */

    struct text offered = read_digits(fields[2]), own = read_digits(fields[3]);
    struct answer answer = read_answer(want);

    if (answer.list.length > room)
        fail("the answer's list does not fit into the buffer");
    call(offered, own, own_leads ? set : 0, room, &answer);
    call(own, offered, own_leads ? 0 : set, room, &answer);
    *written += answer.list.length > 0;
    free(answer.list.octets);
    free(own.octets);
    free(offered.octets);
}

int main(int argc, char **argv)
{
    char *in = NULL, *want = NULL;
    size_t in_room = 0, want_room = 0;
    unsigned long written = 0;

    if (argc != 3) {
        fprintf(stderr, "usage: match INPUT ANSWERS\n");
        return 2;
    }

    FILE *input = open_file(argv[1]), *answers = open_file(argv[2]);

    while (next_line(input, &in, &in_room)) {
        line++;
        if (!next_line(answers, &want, &want_room))
            fail("no answer");
        run(in, want, &written);
    }
    if (line == 0)
        fail("no case");
    if (next_line(answers, &want, &want_room))
        fail("an answer without a case");
    printf("match: %lu cases agree, %lu lists written, each also with the lists exchanged\n", line, written);
    free(want);
    free(in);
    fclose(answers);
    fclose(input);
    return 0;
}
