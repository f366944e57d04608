/* Information elements of 5G NAS: the C interface of libnas.a.
 *
 * Each call returns a number, 0 for done and the others refusals, and puts into values how many values go with it, then these
 * values in the order given below; the places behind them stay as they were. So values[0] is 0 to 4, and the first value is
 * values[1]. A slice is a pointer and a number of elements. A pointer may be any that is not null and aligned where that number
 * is 0. What is lent for writing overlaps nothing else that is lent to the same call. A refusal changes nothing lent but values,
 * and the notes of a mandatory reading. No call asks anything else of its caller: any octets, numbers, tables, rows, logs and
 * counts get an answer.
 *
 * Refusals, with their values:
 *   1   an element is cut short: the octets missing; of a reading before it the start, first octet and octets to the end
 *   2   no room: where, 1 place rows, 2 kept log or block, 3 order log, 4 findings
 *   3   too long, no value: a part, received or set octets, or a pushed element over 65,535 octets; a log over 131,070 octets;
 *       set octets or a log so after the setting or push; a used count above its buffer
 *   4   the table fails the check: its first bad row
 *   5   no table has this number, no value
 *   6, 7, 8, 9  a mandatory row is missing, truncated, too short, not receivable: the row, and how many notes there are
 *   10  the value of a place or row does not fit its form: the place or row
 *   11  malformed: which, 1 order log, 2 kept log, 3 place rows, or a place not in the table; in setting and writing 3 also a
 *       present place under another IEI than the order log gives it
 *   12  the output, or the room for set octets, is too short: the octets needed
 *   27  no such element, no value
 *   29  a checked part is not accepted: the start of the first element that offends
 * Below, each call lists its refusals in the order in which they are checked: the first that is true is the answer.
 *
 * A table of optional elements has ten numbers a row: how many IEIs (1 to 4), four IEIs, the form (0 half octet, 1 fixed,
 * 2 TLV, 3 TLV-E), the value octets of a fixed form, the least whole length, the greatest whole length, and the set of kinds. The
 * greatest length is looked at by the check of the table, nas_check_part and nas_check_part_by alone.
 * A table of mandatory rows has four: the form (0 low half, 1 high half, 2 fixed, 3 LV, 4 LV-E), the octets of a fixed form,
 * the least whole length, and the set of kinds.
 * Bit k of a set allows kind k. The kind of a half octet, also of a mandatory one, is its four bits, so that its set is over the
 * values 0 to 15; that of another form is the low three bits of the value's first octet. An empty value has none and is allowed.
 *
 * tlve_start is the start number of the long form: an unknown element whose first octet is from there to 0x7f has two length
 * octets. It is 0x70 for 5GS.
 */
#ifndef NAS_H
#define NAS_H

#include <stddef.h>
#include <stdint.h>

#ifdef __cplusplus
extern "C" {
#endif

/* ---- lengths, tables, indexes */

/* The length of an unknown element, from the octets from its first octet on.
 * 0: the length. 1: cut short, and the octets missing: up to the stated length, or, where the length field is itself cut, up to
 * the end of that field, so a least number; 1 for no octet. */
uint32_t nas_generic_ie_length(const uint8_t *octets, size_t octets_len, uint8_t tlve_start, uint64_t values[5]);

/* Checks a table of optional elements: at most 128 rows, the last one whole; in each row 1 to 4 IEIs, a form of 0 to 3, of a
 * fixed form at most 255 value octets, a least whole length of at most the greatest, and a greatest of at most 65,538, a set of
 * 1 to 255, of a half octet 1 to 65,535; IEIs of at most 0x7f, or, in a row of half octets, of 0x80 to 0xf0 with zero low four
 * bits; no IEI twice in the table. IEIs beyond the count, and the size of another form than fixed, are not looked at.
 * 0: it passes, no value. 4: the first bad row. */
uint32_t nas_check_table(const uint32_t *table, size_t table_len, uint64_t values[5]);

/* Checks a table of mandatory rows: at most 32 rows, the last one whole; in each row a form of 0 to 4, of a fixed form 1 to 255
 * octets, a least whole length of at most 65,537, which of a half is 0, a set of 1 to 255, of a half 1 to 65,535; right behind
 * each low half a high half, and no high half elsewhere.
 * 0: it passes, no value. 4: the first bad row. */
uint32_t nas_check_mandatory_table(const uint32_t *table, size_t table_len, uint64_t values[5]);

/* Writes the index of a table of optional elements: for each IEI the place of the first row that lists it, or 255. The table
 * is not checked. Of one that fails the check: a row with a count over 4 lists its four IEIs, an unfinished row those that are
 * there; an IEI over 255 has no entry; a place from 255 on is entered as 255, as if it were none.
 * 0: done. */
uint32_t nas_iei_index(const uint32_t *table, size_t table_len, uint8_t index[256]);

/* What an index says of an IEI. An index that ends before the IEI says that it has no place.
 * 0: the place; where it has none, no value. */
uint32_t nas_place_of(const uint8_t *index, size_t index_len, uint8_t iei, uint64_t values[5]);

/* ---- the kept log and the order log, each a buffer with its used count */

/* Pushes an IEI and the octets after it behind the octets used of a kept log.
 * 0: the octets then used. 3. 11: 2. 2: 2. */
uint32_t nas_kept_push(uint8_t *log, size_t log_len, size_t used, uint8_t iei, const uint8_t *octets, size_t octets_len,
                       uint64_t values[5]);

/* How many elements a kept log holds.
 * 0: the count. 3. 11: 2. */
uint32_t nas_kept_count(const uint8_t *log, size_t log_len, size_t used, uint64_t values[5]);

/* The element of a kept log at a number from 0.
 * 0: its start in the log, IEI first, and its length; past the last no value. 3. 11: 2. */
uint32_t nas_kept_get(const uint8_t *log, size_t log_len, size_t used, size_t k, uint64_t values[5]);

/* Takes every element out of a kept log; no octet changes, and nothing is checked.
 * 0: 0, the octets then used. */
uint32_t nas_kept_clear(const uint8_t *log, size_t log_len, size_t used, uint64_t values[5]);

/* Pushes an entry behind the octets used of an order log: 0 with the IEI of an accepted element, or, whatever the IEI,
 * 1 unknown, 2 malformed, 3 repeated, 4 out of sequence. An entry over 4 is refused as 11 right after the check of the used
 * count.
 * 0: the octets then used. 3. 11: 1. 2: 3. */
uint32_t nas_order_push(uint8_t *log, size_t log_len, size_t used, uint8_t entry, uint8_t iei, uint64_t values[5]);

/* The entry of an order log at a number from 0.
 * 0: its octets, that is 0 and the IEI, or a number from 1 to 4; past the last no value. 3. 11: 1. */
uint32_t nas_order_get(const uint8_t *log, size_t log_len, size_t used, size_t k, uint64_t values[5]);

/* ---- an optional part */

/* Reads an optional part by a table. option 0: an element out of sequence is set aside; any other: it is taken. rows gets four
 * numbers for each place, source (0 absent, 1 received), start and length of the value in the part, and the IEI: the earliest
 * that the order log gives the place, or its first; kept gets each unknown or set-aside element behind its octet count in
 * unsigned LEB128; order gets an entry for each element, or nothing where all are accepted, in table order, under first IEIs.
 * 0: the octets used of the kept log, and of the order log. 4: the first bad row. 3. 2: 1. 1: start of the element, its first
 * octet, octets from there to the end, octets missing as nas_generic_ie_length counts them. 2: 2. 2: 3. */
uint32_t nas_read(const uint8_t *part, size_t part_len, const uint32_t *table, size_t table_len, uint8_t tlve_start,
                  uint8_t option, uint32_t *rows, size_t rows_len, uint8_t *kept, size_t kept_len, uint8_t *order,
                  size_t order_len, uint64_t values[5]);

/* The same by table number: 0 is table P of the examples; 1 registration request, 2 registration accept, 3 registration
 * reject, 4 service request, 5 PDU session establishment request, 6 PDU session establishment accept. The start number of the
 * long form is 0x70.
 * 5 for any other number, checked first; never 4; else as nas_read. */
uint32_t nas_read_by(uint32_t number, const uint8_t *part, size_t part_len, uint8_t option, uint32_t *rows, size_t rows_len,
                     uint8_t *kept, size_t kept_len, uint8_t *order, size_t order_len, uint64_t values[5]);

/* Reads an optional part by a table into one block for both logs: the kept log in its front, the order log directly behind the
 * octets used of it; all behind both stays. Three times the part's octets are always enough. For setting, writing and the findings the
 * kept log is block with the first count as its length and used octets, the order log block plus the first count with the second.
 * 2: 2 where the two logs together do not fit, and never 2: 3; else as nas_read. */
uint32_t nas_read_block(const uint8_t *part, size_t part_len, const uint32_t *table, size_t table_len, uint8_t tlve_start,
                        uint8_t option, uint32_t *rows, size_t rows_len, uint8_t *block, size_t block_len, uint64_t values[5]);

/* The same by table number, as with nas_read_by.
 * 5 for any other number, checked first; never 4; else as nas_read_block. */
uint32_t nas_read_block_by(uint32_t number, const uint8_t *part, size_t part_len, uint8_t option, uint32_t *rows, size_t rows_len,
                           uint8_t *block, size_t block_len, uint64_t values[5]);

/* Checks an optional part that another program made: it is accepted exactly when every element has a place and would be accepted by
 * nas_read, in table order, under the first IEI of its place, and is no longer, IEI and length field counted, than its row's greatest
 * whole length. Nothing is lent to be written.
 * 0: accepted, no value. 4: the first bad row. 3. 1: as nas_read, also where an element before it offends. 29: the start of the first
 * element that offends. */
uint32_t nas_check_part(const uint8_t *part, size_t part_len, const uint32_t *table, size_t table_len, uint8_t tlve_start,
                        uint64_t values[5]);

/* The same by table number, as with nas_read_by.
 * 5 for a number that no table has, checked first; never 4; else as nas_check_part. */
uint32_t nas_check_part_by(uint32_t number, const uint8_t *part, size_t part_len, uint64_t values[5]);

/* The element at a state, and the state behind it. A state has four numbers: position, places met from 0 to 63 and from 64 to
 * 127 (a bit each), highest place met; four zeros are the state at a part's start. Any state gets an answer.
 * 0: length, IEI, place (255 where it has none), and how it came (0 accepted, 1 unknown, 2 malformed, 3 repeated, 4 out of
 * sequence); it starts at the position that the state had. At the end no value, and the state stays. 4: the first bad row.
 * 3. 1: start of the element, its first octet, octets from there to the end, octets missing. On 1, 3 and 4 the state stays. */
uint32_t nas_next(const uint8_t *part, size_t part_len, const uint32_t *table, size_t table_len, uint8_t tlve_start,
                  uint8_t option, uint64_t state[4], uint64_t values[5]);

/* Why an element of a part came as it did, by its number from 0.
 * 0: how it came (0 accepted, 1 unknown, 2 malformed, 3 repeated, 4 out of sequence), and for the last three its ground: of a
 * malformed element 1 cut short, 2 under the least length, 3 kind not allowed, the first that is true; of a repeated one the start
 * of the first element of its place; of one out of sequence the start of the first element of the highest place met before it. 4:
 * the first bad row. 3. 1: as nas_read, wherever the part is cut. 27 (no value): there is no such element. */
uint32_t nas_why(const uint8_t *part, size_t part_len, const uint32_t *table, size_t table_len, uint8_t tlve_start,
                 uint8_t option, size_t element, uint64_t values[5]);

/* The same by table number: 5 for a number without a table, checked first; never 4. */
uint32_t nas_why_by(uint32_t number, const uint8_t *part, size_t part_len, uint8_t option, size_t element, uint64_t values[5]);

/* ---- the value of a place */

/* Shows the value of a place by the place rows: received are the octets that were read, and the first used octets of set those
 * that were set.
 * 0: source (1 received, 2 set), start and length of the value in its octets, and the IEI; of a half octet its four bits and the
 * IEI; of an absent place no value. It sees no log, and does not judge whether the IEI agrees with one. 4: the first bad row of
 * the table. 3. 2: 1. 11: 3. 10: the place. */
uint32_t nas_show(const uint32_t *table, size_t table_len, const uint32_t *rows, size_t rows_len, const uint8_t *received,
                  size_t received_len, const uint8_t *set, size_t set_len, size_t used, size_t place, uint64_t values[5]);

/* Sets the value of a place: it goes behind the set octets that are used, and the row points there, with the earliest IEI that
 * the order log gives the place, or the place's first. No log is touched. 11 (3) also where a present row has another IEI than
 * the log gives its place, be it the row to be set: such a row is repaired by clearing and setting it.
 * 0: the set octets then used. 4: the first bad row of the table. 3. 2: 1. 11: 1. 11: 3. 10: the place. 12: the set octets
 * needed. */
uint32_t nas_set(const uint32_t *table, size_t table_len, uint32_t *rows, size_t rows_len, const uint8_t *received,
                 size_t received_len, uint8_t *set, size_t set_len, size_t used, const uint8_t *order, size_t order_len,
                 size_t order_used, size_t place, const uint8_t *value, size_t value_len, uint64_t values[5]);

/* Makes a place absent. No log is touched, and no set octet.
 * 0: no value. 4: the first bad row of the table. 3. 2: 1. 11: 3. */
uint32_t nas_clear(const uint32_t *table, size_t table_len, uint32_t *rows, size_t rows_len, const uint8_t *received,
                   size_t received_len, const uint8_t *set, size_t set_len, size_t used, size_t place, uint64_t values[5]);

/* ---- writing an optional part */

/* Writes an optional part from its place rows, the received and the set octets, and both logs; of set octets and logs the first
 * used ones count. Elements come in the order of the order log; a place that is present and not in it comes before the first
 * logged element of a higher place. Behind what is written the output stays as it was. 11 (3) also where a present row has
 * another IEI than the order log gives its place, as after a push to the log.
 * 0: the octets written. 4: the first bad row of the table. 3. 2: 1. 11: 1. 11: 2. 11: 3. 10: the lowest place whose value does
 * not fit its form. 12: the octets needed. */
uint32_t nas_write(const uint32_t *table, size_t table_len, const uint32_t *rows, size_t rows_len, const uint8_t *received,
                   size_t received_len, const uint8_t *set, size_t set_len, size_t set_used, const uint8_t *kept,
                   size_t kept_len, size_t kept_used, const uint8_t *order, size_t order_len, size_t order_used,
                   uint8_t *output, size_t output_len, uint64_t values[5]);

/* The same by table number, as with nas_read_by.
 * 5 for a number that no table has, checked first; never 4; else as nas_write. */
uint32_t nas_write_by(uint32_t number, const uint32_t *rows, size_t rows_len, const uint8_t *received, size_t received_len,
                      const uint8_t *set, size_t set_len, size_t set_used, const uint8_t *kept, size_t kept_len,
                      size_t kept_used, const uint8_t *order, size_t order_len, size_t order_used, uint8_t *output,
                      size_t output_len, uint64_t values[5]);

/* ---- mandatory rows */

/* Reads mandatory rows from the front of a part; what follows them is left. lenient 0: the first fault refuses; any other: a row
 * that is too short or not receivable is kept and noted, and a row that is missing or truncated still refuses. rows gets three
 * numbers for each row, source, start and length. notes gets row and number (8 or 9) of each note, two numbers each, also where
 * the reading is refused with 6 or 7; behind them it stays as it was. 64 numbers are always enough.
 * 0: the octets read, how many notes. 4: the first bad row of the table. 3. 2: 1. 6, 7, 8, 9: the row, how many notes. */
uint32_t nas_read_mandatory(const uint8_t *part, size_t part_len, const uint32_t *table, size_t table_len, uint8_t lenient,
                            uint32_t *rows, size_t rows_len, uint32_t notes[64], uint64_t values[5]);

/* The same by table number: 1 to 6 as with nas_read_by; 0 has no mandatory rows.
 * 5 for a number that no table has, checked first; never 4; else as nas_read_mandatory. */
uint32_t nas_read_mandatory_by(uint32_t number, const uint8_t *part, size_t part_len, uint8_t lenient, uint32_t *rows,
                               size_t rows_len, uint32_t notes[64], uint64_t values[5]);

/* Writes mandatory rows one after the other, a high half in the octet of its low half.
 * 0: the octets written. 4: the first bad row of the table. 3. 2: 1. 11: 3, also for an absent row. 10: the lowest row whose
 * value does not fit its form. 12: the octets needed. */
uint32_t nas_write_mandatory(const uint32_t *table, size_t table_len, const uint32_t *rows, size_t rows_len,
                             const uint8_t *received, size_t received_len, const uint8_t *set, size_t set_len,
                             size_t set_used, uint8_t *output, size_t output_len, uint64_t values[5]);

/* The same by table number, as with nas_read_mandatory_by.
 * 5 for a number that no table has, checked first; never 4; else as nas_write_mandatory. */
uint32_t nas_write_mandatory_by(uint32_t number, const uint32_t *rows, size_t rows_len, const uint8_t *received,
                                size_t received_len, const uint8_t *set, size_t set_len, size_t set_used, uint8_t *output,
                                size_t output_len, uint64_t values[5]);

/* ---- the order of a part */

/* What is out of the ordinary in the order of a part, by its logs: two numbers each, the entry of the order log from 0, and 1 a
 * known place below one before it, 2 an unknown element whose IEI has a place, 3 malformed, 4 repeated, 5 out of sequence.
 * 0: how many. 4: the first bad row of the table. 3. 11: 1. 11: 2. 2: 4. */
uint32_t nas_findings(const uint32_t *table, size_t table_len, const uint8_t *kept, size_t kept_len, size_t kept_used,
                      const uint8_t *order, size_t order_len, size_t order_used, uint32_t *findings, size_t findings_len,
                      uint64_t values[5]);

#ifdef __cplusplus
}
#endif

#endif
