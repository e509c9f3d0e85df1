/* What and where: the words for people about a refusal. Number and place are the
 * library's; the input is looked at only to find words, and nothing is decided. */
#ifndef NOFERKASH_EXPLAIN_H
#define NOFERKASH_EXPLAIN_H

#include <stddef.h>
#include <stdint.h>

/* What the input was given to: a file's bytes, a text, or a table that a spreadsheet saved. */
enum read_as { AS_FILE, AS_TEXT, AS_TABLE };

/* Room for the longest words and the 0 after them. */
enum { EXPLAIN_ROOM = 512 };

/* Writes into `words`, of `room` bytes (at least EXPLAIN_ROOM), the words that
 * stand after "refused N at P: "; 0-terminated, one line, no control bytes. Files and
 * texts are explained here, tables below.
 * `answer` is the library's 64-bit answer, a refusal of 1..3, 5..13, 21..29, 31..33,
 * 38. It is not trusted: whatever it says, nothing outside the input is read. The time taken
 * is linear in the input's length. */
void explain_refusal(enum read_as read_as, const uint8_t *input, size_t length, uint64_t answer,
                     char *words, size_t room);

/* The same of a table. What is wrong where is seen in the text that the library made of it,
 * whose lines are the rows; what was really given, in the table alone. */
void explain_table(const uint8_t *table, size_t table_length, const uint8_t *text,
                   size_t text_length, uint64_t answer, char *words, size_t room);

/* Shows bytes for people, in at most `most` bytes (at least 2) and a 0 after
 * them; so `shown` has most + 1. Bytes 0..31 and 127 become a backslash and three
 * octal digits; bytes over 127 stand where they are UTF-8 that can be seen, else
 * they become octal too. What does not fit is cut, never inside a character or
 * an escape, and then ends with "..". */
void show_bytes(const uint8_t *bytes, size_t length, size_t most, char *shown);
/* The same in at most `most` characters, of which each takes up to four bytes; so `shown`
 * has 4 * most + 1. */
void show_characters(const uint8_t *bytes, size_t length, size_t most, char *shown);

#endif
