/*
 * packet: reads messages and writes them again inside tunnel packets, with card_packet_rewrite. Each line of
 * standard input has the octets of a message in hex, `-` if there are none; the answer is the packet in hex,
 * `-` if only the version and the type of the message are read, or `refused-N`.
 */
#include <stdint.h>
#include <stdio.h>
#include <stdlib.h>
#include <string.h>

/* An answer from here on is a refusal: this plus its number. */
#define REFUSED 65536

/* Octets of the buffer for a packet. */
#define ROOM 2048

size_t card_packet_rewrite(const uint8_t *message, size_t octets, uint8_t *packet, size_t room);

/* Replaces digits by their octets and answers how many; ends the program if they are not digits. */
static size_t read_digits(char *line)
{
    size_t n = strcmp(line, "-") == 0 ? 0 : strlen(line);

    for (size_t i = 0; i < n / 2; i++) {
        unsigned octet;

        if (sscanf(line + 2 * i, "%2x", &octet) != 1)
            n = 1;
        line[i] = (char)octet;
    }
    if (n % 2 != 0) {
        fprintf(stderr, "no octets in hex\n");
        exit(2);
    }
    return n / 2;
}

static void answer(char *line)
{
    static uint8_t packet[ROOM];
    size_t octets = read_digits(line);
    size_t n = card_packet_rewrite((const uint8_t *)line, octets, packet, ROOM);

    if (n >= REFUSED)
        printf("refused-%zu", n - REFUSED);
    else if (n == 0)
        printf("-");
    else
        for (size_t i = 0; i < n && i < ROOM; i++)
            printf("%02X", packet[i]);
    printf("\n");
}

int main(void)
{
    char *line = NULL;
    size_t room = 0;
    ssize_t n;

    while ((n = getline(&line, &room, stdin)) > 0) {
        if (line[n - 1] == '\n')
            line[n - 1] = 0;
        answer(line);
    }
    free(line);
    return 0;
}
