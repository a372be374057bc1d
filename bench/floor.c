/*
 * floor: a trace without the card. Finds the LF of each line of standard input, decodes the digits after an M, and
 * prints the line's number and a text that is as long as what bearertrace prints on average for the trace of
 * trace.txt. It checks nothing, reads no message and keeps no state: any program that reads these lines and prints
 * such answers does at least this.
 */
#include <string.h>
#include <unistd.h>

enum { ROOM = 65536, NUMBER = 20 };

static char in[ROOM], out[ROOM], number[NUMBER + 1] = "00000000000000000000";
static const char text[] = " M up discarded no 120\n";
static size_t first = NUMBER, waits;
static unsigned char value[256];

/* Not static, so that they are stored. */
unsigned char octets[ROOM / 2];

/* The octets of n digits. */
static void decode(const char *digits, size_t n)
{
    for (size_t i = 0; i + 1 < n; i += 2)
        octets[i / 2] = (unsigned char)(value[(unsigned char)digits[i]] << 4 | value[(unsigned char)digits[i + 1]]);
}

/* The next number, in decimal digits. */
static void count(void)
{
    size_t i = NUMBER - 1;

    for (; number[i] == '9'; i--)
        number[i] = '0';
    number[i]++;
    if (i < first)
        first = i;
}

static int flush(void)
{
    int taken = write(1, out, waits) == (ssize_t)waits;

    waits = 0;
    return taken;
}

static int answer(const char *line, size_t n)
{
    if (n > 2 && line[0] == 'M')
        decode(line + 2, n - 2);
    count();
    if (waits > ROOM - NUMBER - sizeof text && !flush())
        return 0;
    memcpy(out + waits, number + first, NUMBER - first);
    waits += NUMBER - first;
    memcpy(out + waits, text, sizeof text - 1);
    waits += sizeof text - 1;
    return 1;
}

int main(void)
{
    size_t held = 0;
    ssize_t got;

    for (int i = 0; i < 16; i++)
        value[(unsigned char)"0123456789ABCDEF"[i]] = (unsigned char)i;
    while ((got = read(0, in + held, ROOM - held)) > 0) {
        const char *line = in, *end = in + held + got, *lf;

        for (; (lf = memchr(line, '\n', (size_t)(end - line))) != NULL; line = lf + 1) {
            if (!answer(line, (size_t)(lf - line)))
                return 1;
        }
        held = (size_t)(end - line);
        memmove(in, line, held);
    }
    return !flush();
}
