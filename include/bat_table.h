/*
 * The table of element entries, for C: link target/staticlib/libbat_table.a, which
 * `tools/staticlib.sh bat_table` proves and writes.
 */
#ifndef BAT_TABLE_H
#define BAT_TABLE_H

#include <stddef.h>
#include <stdint.h>

/*
 * An element of application data: its identifier, the place of its identifier octet in the data, and
 * how many octets the whole element has.
 */
struct bat_entry {
    uint8_t identifier;
    size_t start;
    size_t length;
};

/* An answer from here on is a refusal: this plus its number. */
#define BAT_TABLE_REFUSED 65536

/*
 * Stores an entry for each element of the data at the front of the table, in order, and returns how
 * many there are; later entries stay as they were. Data is refused by 1 if it has more than 2,048
 * octets, by 2 if it can't be framed, and by 3 if it has more elements than the table has entries; then
 * the function returns BAT_TABLE_REFUSED plus the number, and the table stays as it was. Neither pointer
 * may be NULL, and the table and the data must not overlap.
 */
size_t bat_table_store(const uint8_t *data, size_t octets, struct bat_entry *table, size_t entries);

#endif
