/* The words about a refusal: what was really given, then what is where, or else
 * the words by number alone. */
#include "explain.h"

#include "parts.h"
#include "noferkash.h"

static int say_where(struct part read, uint64_t answer, struct words *words) {
    int number = NOFERKASH_NUMBER(answer);
    size_t place = NOFERKASH_PLACE(answer);
    if (words->read_as == AS_FILE) {
        return explain_file(read, number, place, words);
    }
    return number <= NOFERKASH_FIELD_OUT_OF_RANGE ? explain_line(read, number, place, words)
                                                  : explain_order(read, number, place, words);
}

static void explain(struct part given, struct part read, uint64_t answer, struct words *words) {
    if (say_given(given, words)) {
        say(words, "; ");
    }
    if (!say_where(read, answer, words)) {
        say(words, "%s", noferkash_refusal_words(NOFERKASH_NUMBER(answer)));
    }
}

/* So that nobody has to think of NULL. */
static struct part part_of(const uint8_t *at, size_t length) {
    static const uint8_t nothing[1] = {0};
    return (struct part){at != NULL ? at : nothing, at != NULL ? length : 0};
}

void explain_refusal(enum read_as read_as, const uint8_t *input, size_t length, uint64_t answer,
                     char *words, size_t room) {
    struct words said = {words, room, 0, read_as};
    struct part whole = part_of(input, length);
    explain(whole, whole, answer, &said);
}

void explain_table(const uint8_t *table, size_t table_length, const uint8_t *text,
                   size_t text_length, uint64_t answer, char *words, size_t room) {
    struct words said = {words, room, 0, AS_TABLE};
    explain(part_of(table, table_length), part_of(text, text_length), answer, &said);
}
