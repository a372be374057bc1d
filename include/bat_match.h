/*
 * Matching of two codec lists, for C: link target/staticlib/libbat_match.a, which
 * `tools/staticlib.sh bat_match` proves and writes.
 */
#ifndef BAT_MATCH_H
#define BAT_MATCH_H

#include <stddef.h>
#include <stdint.h>

/*
 * The answer: a refusal, the place of the chosen codec in the leading list, and how much was written.
 */
struct bat_match_answer {
    uint8_t refusal; /* 0, or the number that refuses: 1, 2, 14 or 15; 4 if only the writing is refused */
    size_t start;    /* the place of the chosen codec's identifier octet in the leading list */
    size_t length;   /* how many octets the chosen codec's whole element has */
    size_t written;  /* how many octets the reduced list has, at the front of out */
};

/*
 * Chooses the first codec of the leading list that the other list also has, and writes the reduced list:
 * the common codecs in the leading list's order, each once. Each list is a whole codec list element. The
 * offered list leads if own_leads is 0, the own list if it is any other number. The chosen codec stays
 * where it is: its element is the part of the leading list at (start, length).
 *
 * The lists are refused by 1 if one of them has more than 2,048 octets, by 2 if one can't be framed, by 14
 * if one is anything but a single decoded codec list, and by 15 if they have no codec in common; then the
 * other fields are 0. If the reduced list has more than room octets, refusal is 4: start and length are
 * still those of the chosen codec, and written is 0. Whatever refuses, out stays as it was; otherwise the
 * octets after those written stay.
 *
 * No pointer may be NULL, even for no octets, and out may overlap neither list.
 */
struct bat_match_answer bat_match_codecs(const uint8_t *offered, size_t offered_octets, const uint8_t *own,
                                         size_t own_octets, uint8_t own_leads, uint8_t *out, size_t room);

#endif
