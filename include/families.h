/* The family store as a C library. Every slice is a pointer and its number of elements.
 * The tables are those of document 01, "Tables"; the numbers are those of "Questions at the door" and, from 13 on, of document 02.
 *
 * The arrays lent to one call must not overlap, and neither must a result, a count or a length lie in one of them. A pointer may be null only
 * where its length is 0; a result, a count and a length are never null. Beyond that nothing is asked of the caller: a call on any words, numbers
 * and bytes does its work or is refused. Nothing is kept between calls.
 *
 * A call is refused by the first of its questions that is answered no:
 *    1  every call: are the tables, or the dictionary, lent well formed?
 *    2  update: is it a triple?
 *    3  update: are the two sides of a statement allowed?
 *    4  addition: is it there already, or has its table room for one more?
 *    5  update: will the kept facts fit?
 *    6  question, atom: is the layout right, and is each term one that may stand in its place?
 *    7  question: does each head variable stand in an atom?
 *    8  question, alternatives, listing, writing: do all rows, or their lines, fit the lent output? (asked last)
 *    9  delivery: is it whole, does it end at its last byte, is it at most 65,536 bytes long?
 *   10  delivery: does each entry's property belong to its section?
 *   11  delivery: is there at most one delivery number, of four bytes?
 *   12  listing: is the order 0 to 5?
 *   13  reading: is the file UTF-8, does each line follow the grammar, with absolute IRIs, and does each escape give a character that may
 *       stand there?
 *   14  reading: has the dictionary room, and numbers left, for the texts that are new?
 *   15  reading: does the delivery fit its bytes, and 65,536?
 *   16  writing: has each term of the rows a text? (asked before 8)
 * A refused update or delivery changes no word of the tables. A refused question, alternatives call or listing leaves its whole output
 * zero and its count 0. A refused reading changes no byte of the dictionary, and leaves the delivery zero and its length 0. A refused writing
 * leaves its whole output zero and its length 0. */
#ifndef FAMILIES_H
#define FAMILIES_H

#include <stddef.h>
#include <stdint.h>

#ifdef __cplusplus
extern "C" {
#endif

/* An update answers 0 applied, 100 idle, or the number that refused it. A refused or idle update changes no word.
 * An update of a statement uses some 0.8 MB of stack. */
uint32_t families_add(uint32_t *statements, size_t statements_len, uint32_t *facts, size_t facts_len,
                      uint32_t *kept, size_t kept_len, uint16_t *supports, size_t supports_len,
                      uint32_t subject, uint32_t property, uint32_t object);
uint32_t families_withdraw(uint32_t *statements, size_t statements_len, uint32_t *facts, size_t facts_len,
                           uint32_t *kept, size_t kept_len, uint16_t *supports, size_t supports_len,
                           uint32_t subject, uint32_t property, uint32_t object);

/* A delivery (document 01, "Deliveries"): 0, or the number that refused the whole. result: delivery number, applied, idle, refused; all 0
 * when refused. Each entry counts as one of the three; a delivery that changes statements uses as much stack as such an update. */
uint32_t families_deliver(uint32_t *statements, size_t statements_len, uint32_t *facts, size_t facts_len,
                          uint32_t *kept, size_t kept_len, uint16_t *supports, size_t supports_len,
                          const uint8_t *bytes, size_t bytes_len, uint32_t result[4]);

/* A question (document 01, "Questions and their rewriting"), put to statements and kept facts or to statements and explicit facts:
 * 0, or the refusing number; *count: the rows written, 0 when refused. Atoms with property 2, 3 or a variable also match a pair of classes,
 * or of properties, that one or more explicit steps join (document 02, slip 4). A question uses some 0.8 MB of stack. */
uint32_t families_ask_kept(const uint32_t *statements, size_t statements_len, const uint32_t *kept, size_t kept_len,
                           const uint32_t *question, size_t question_len, uint32_t *rows, size_t rows_len, uint64_t *count);
uint32_t families_ask_rewritten(const uint32_t *statements, size_t statements_len, const uint32_t *facts, size_t facts_len,
                                const uint32_t *question, size_t question_len, uint32_t *rows, size_t rows_len, uint64_t *count);

/* The alternatives of an atom, three words a row: kind, source, target. Replies as for a question. */
uint32_t families_alternatives(const uint32_t *statements, size_t statements_len,
                               uint32_t subject, uint32_t property, uint32_t object,
                               uint32_t *rows, size_t rows_len, uint64_t *count);

/* A listing: 0, or the refusing number; *count: the rows written, 0 when refused. Order: 0 SPO, 1 SOP, 2 PSO, 3 POS, 4 OSP, 5 OPS. */
uint32_t families_list_statements(const uint32_t *table, size_t table_len, uint32_t order,
                                  uint32_t *rows, size_t rows_len, uint64_t *count);
uint32_t families_list_facts(const uint32_t *table, size_t table_len, uint32_t order,
                             uint32_t *rows, size_t rows_len, uint64_t *count);
uint32_t families_list_kept(const uint32_t *table, size_t table_len, uint32_t order,
                            uint32_t *rows, size_t rows_len, uint64_t *count);

/* Reads a file of RDF 1.1 N-Triples (document 02, slip 1) with a dictionary, which document 02 calls a term book, into a delivery: 0, or
 * 1, 13, 14, 15; *length: the bytes of the delivery, 0 when refused. Bytes of zeros, or none, are an empty dictionary; texts that are new
 * are entered in it. The delivery adds one triple for each line that has one, and zeros follow it. A reading uses some 0.64 MB of stack. */
uint32_t families_read_ntriples(const uint8_t *file, size_t file_len, uint8_t *dictionary, size_t dictionary_len,
                                uint8_t *delivery, size_t delivery_len, uint64_t *length);

/* Writes the rows of a table, in their order, as canonical RDF 1.1 N-Triples (document 02, slip 3), with the texts of a dictionary: 0, or
 * 1, 16, 8; *length: the bytes written, 0 when refused. A line is subject, property and object, each followed by a space, then a dot and
 * byte 10; zeros follow the last. The terms 1 to 5 have their texts in every dictionary, 6 to 15 have none. Kept facts are written without
 * their supports. A writing uses some 0.66 MB of stack. */
uint32_t families_write_statements(const uint32_t *table, size_t table_len, const uint8_t *dictionary, size_t dictionary_len,
                                   uint8_t *text, size_t text_len, uint64_t *length);
uint32_t families_write_facts(const uint32_t *table, size_t table_len, const uint8_t *dictionary, size_t dictionary_len,
                              uint8_t *text, size_t text_len, uint64_t *length);
uint32_t families_write_kept(const uint32_t *table, size_t table_len, const uint8_t *dictionary, size_t dictionary_len,
                             uint8_t *text, size_t text_len, uint64_t *length);

#ifdef __cplusplus
}
#endif

#endif
