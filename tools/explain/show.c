/* Bytes and numbers as people can read them on one line. */
#include <stdarg.h>
#include <stdio.h>
#include <string.h>

#include "parts.h"

int say(struct words *words, const char *format, ...) {
    size_t left = words->room - words->used;
    va_list arguments;
    va_start(arguments, format);
    int length = vsnprintf(words->at + words->used, left, format, arguments);
    va_end(arguments);
    if (length > 0 && left > 0) {
        words->used += (size_t)length < left ? (size_t)length : left - 1;
    }
    return 1;
}

const char *grouped(uint64_t number, char shown[GROUPED_ROOM]) {
    char *at = &shown[GROUPED_ROOM - 1];
    *at = '\0';
    int digits = 0;
    do {
        if (digits > 0 && digits % 3 == 0) {
            *--at = ',';
        }
        *--at = (char)('0' + number % 10);
        number /= 10;
        digits++;
    } while (number > 0);
    return at;
}

const char *are(size_t count) {
    return count == 1 ? "is" : "are";
}

const char *plural(size_t count) {
    return count == 1 ? "" : "s";
}

/* The bytes of the UTF-8 character that begins with this byte, and the range of
 * its second byte, which shuts out what is too long, too great or half of a pair. */
static size_t character_size(uint8_t first, uint8_t *least, uint8_t *greatest) {
    *least = first == 0xE0 ? 0xA0 : first == 0xF0 ? 0x90 : 0x80;
    *greatest = first == 0xED ? 0x9F : first == 0xF4 ? 0x8F : 0xBF;
    if (first >= 0xC2 && first <= 0xDF) {
        return 2;
    }
    if (first >= 0xE0 && first <= 0xEF) {
        return 3;
    }
    return first >= 0xF0 && first <= 0xF4 ? 4 : 0;
}

/* Characters that are good UTF-8, but move the cursor or cannot be seen: the
 * controls 80h..9Fh and the byte order mark. */
static int is_unseen(const uint8_t *bytes) {
    return (bytes[0] == 0xC2 && bytes[1] < 0xA0) ||
           (bytes[0] == 0xEF && bytes[1] == 0xBB && bytes[2] == 0xBF);
}

/* How many bytes at the front stand as they are; 0 if the first is escaped. */
static size_t standing(const uint8_t *bytes, size_t length) {
    if (bytes[0] < 0x80) {
        return bytes[0] >= ' ' && bytes[0] != 0x7F;
    }
    uint8_t least;
    uint8_t greatest;
    size_t size = character_size(bytes[0], &least, &greatest);
    if (size == 0 || size > length || bytes[1] < least || bytes[1] > greatest) {
        return 0;
    }
    for (size_t i = 2; i < size; i++) {
        if ((bytes[i] & 0xC0) != 0x80) {
            return 0;
        }
    }
    return is_unseen(bytes) ? 0 : size;
}

/* What has to fit: bytes, or characters, of which an escape has four. */
enum unit { BYTES, CHARACTERS };

static void show(const uint8_t *bytes, size_t length, enum unit unit, size_t most, char *shown) {
    size_t used = 0;
    size_t fitted = 0;
    /* Where it is cut if it has to be: there ".." still has room. */
    size_t cut = 0;
    while (length > 0) {
        size_t taken = standing(bytes, length);
        size_t size = taken > 0 ? taken : 4;
        size_t needed = taken > 0 && unit == CHARACTERS ? 1 : size;
        if (needed > most - fitted) {
            memcpy(shown + cut, "..", 3);
            return;
        }
        if (taken > 0) {
            memcpy(shown + used, bytes, taken);
        } else {
            taken = 1;
            snprintf(shown + used, 5, "\\%03o", (unsigned)bytes[0]);
        }
        used += size;
        fitted += needed;
        bytes += taken;
        length -= taken;
        cut = fitted + 2 <= most ? used : cut;
    }
    shown[used] = '\0';
}

void show_bytes(const uint8_t *bytes, size_t length, size_t most, char *shown) {
    show(bytes, length, BYTES, most, shown);
}

void show_characters(const uint8_t *bytes, size_t length, size_t most, char *shown) {
    show(bytes, length, CHARACTERS, most, shown);
}
