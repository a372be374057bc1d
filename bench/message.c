/*
 * message FILE TURNS: reads the message in FILE TURNS times; prints the answer, which must be the same each time. The
 * reader is chosen when this is built:
 *   CARD    the card's reader: the number of the refusal, 256 for a version and type alone, or 1000 plus the port
 *   OSIP    libosip2's parser, its answer freed: 1 if the message is accepted
 *   SOFIA   Sofia-SIP's parser, the same
 *   OCTETS  no reader: looks at each octet once, and counts the line ends
 *   MEMCHR  the same with the C library's memchr, which looks at many octets at once
 */
#include <stdio.h>
#include <stdlib.h>
#include <string.h>

#define ROOM 4096

#if defined CARD
#include <stdint.h>

uint32_t card_message_read(const uint8_t *m, size_t n);

static unsigned answer(const char *text, size_t octets)
{
    return card_message_read((const uint8_t *)text, octets);
}
#elif defined OSIP
#include <osipparser2/osip_port.h>
#include <osipparser2/sdp_message.h>

/* Its texts end in 0, so it needs no length. */
static unsigned answer(const char *text, size_t octets)
{
    sdp_message_t *m;
    unsigned taken;

    (void)octets;
    if (sdp_message_init(&m) != 0)
        exit(2);
    taken = sdp_message_parse(m, text) == 0;
    sdp_message_free(m);
    return taken;
}
#elif defined SOFIA
#include <sofia-sip/sdp.h>

/* Without a memory pool of the caller's, which would cost some 2,000 more instructions. */
static unsigned answer(const char *text, size_t octets)
{
    sdp_parser_t *p = sdp_parse(NULL, text, (issize_t)octets, 0);
    unsigned taken = sdp_session(p) != NULL;

    sdp_parser_free(p);
    return taken;
}
#elif defined OCTETS
static unsigned answer(const char *text, size_t octets)
{
    unsigned lines = 0;

    for (const char *end = text + octets; text < end; text++) {
        if (*text == '\n')
            lines++;
    }
    return lines;
}
#elif defined MEMCHR
static unsigned answer(const char *text, size_t octets)
{
    unsigned lines = 0;
    const char *end = text + octets, *lf;

    for (; (lf = memchr(text, '\n', (size_t)(end - text))) != NULL; text = lf + 1)
        lines++;
    return lines;
}
#endif

int main(int argc, char **argv)
{
    static char room[ROOM];
    /* Loaded again at each turn, so that the compiler leaves no turn out. */
    const char *volatile text = room;
    FILE *file = argc == 3 ? fopen(argv[1], "rb") : NULL;
    size_t octets;
    unsigned first;

    if (file == NULL)
        return 2;
    octets = fread(room, 1, ROOM - 1, file);
    fclose(file);
    first = answer(text, octets);
    for (long turns = atol(argv[2]); turns > 1; turns--) {
        if (answer(text, octets) != first)
            return 1;
    }
    printf("%u\n", first);
    return 0;
}
