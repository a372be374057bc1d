/*
 * match OFFERED OWN LEAD TURNS: matches the codec lists in the files OFFERED and OWN TURNS times with bat_match_codecs.
 * LEAD is 1 if the own list leads, and 0 if the offered one does. Prints the refusal, the place and length of the
 * chosen codec, and the reduced list in hex, `-` for none; each time must give the same.
 */
#include <stdio.h>
#include <stdlib.h>
#include <string.h>

#include "bat_match.h"

#define ROOM 2048

/* Reads a file whole, and answers how many octets it has. */
static size_t read_file(const char *name, uint8_t *room)
{
    FILE *file = fopen(name, "rb");
    size_t octets;

    if (file == NULL)
        exit(2);
    octets = fread(room, 1, ROOM, file);
    fclose(file);
    return octets;
}

int main(int argc, char **argv)
{
    static uint8_t offered[ROOM], own[ROOM], out[ROOM], first[ROOM];
    struct bat_match_answer a, b;
    size_t no, nw;
    uint8_t own_leads;

    if (argc != 5)
        return 2;
    no = read_file(argv[1], offered);
    nw = read_file(argv[2], own);
    own_leads = (uint8_t)atoi(argv[3]);
    a = bat_match_codecs(offered, no, own, nw, own_leads, out, ROOM);
    memcpy(first, out, ROOM);
    for (long turns = atol(argv[4]); turns > 1; turns--) {
        b = bat_match_codecs(offered, no, own, nw, own_leads, out, ROOM);
        if (b.refusal != a.refusal || b.start != a.start || b.length != a.length || b.written != a.written)
            return 1;
    }
    if (memcmp(first, out, ROOM) != 0)
        return 1;
    printf("%u %zu %zu ", a.refusal, a.start, a.length);
    for (size_t i = 0; i < a.written; i++)
        printf("%02X", out[i]);
    printf("%s\n", a.written > 0 ? "" : "-");
    return 0;
}
