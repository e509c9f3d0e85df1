/* threads FILE..: threads that run at once call all eight functions on the same input, each into a
 * buffer of its own, and must get the answers and the bytes that one thread got before. Each file
 * is taken as it is, cut short, and with a byte changed, so that refusals are met too. */
#define _XOPEN_SOURCE 700
#include "noferkash.h"

#include <pthread.h>
#include <stdio.h>
#include <stdlib.h>
#include <string.h>

#define THREADS 8
#define ROUNDS 20
#define GUARD 0xA5
#define FENCE 16

enum call { CHECK, LIST, TO_TEXT, TIDY, FOLD, TO_SHEET, TO_FULL, TO_SHORT, FROM_SHEET, CALLS };

struct bytes {
    uint8_t *at;
    size_t length;
};

struct input {
    struct bytes file, text, sheet;
    uint64_t due[CALLS];
    uint8_t *due_bytes[CALLS];
};

static struct input *inputs;
static size_t input_count, greatest_buffer;
static pthread_barrier_t start;

static void *room(size_t length) {
    void *got = malloc(length + 1);
    if (got == NULL) {
        perror("threads");
        exit(2);
    }
    return got;
}

static size_t buffer_for(const struct input *input) {
    /* For its text, or for that of a table no longer than this, whose text may be twice so long. */
    size_t text = 2 * 25 * input->file.length + 2;
    return (text > NOFERKASH_FILE_LIMIT ? text : NOFERKASH_FILE_LIMIT) + FENCE;
}

/* Three lists, each as long as there are tracks, one behind the other. */
static uint64_t list(struct bytes file, uint32_t *lists) {
    size_t count = NOFERKASH_LENGTH(
        noferkash_list_tracks(file.at, file.length, NULL, 0, NULL, 0, NULL, 0));
    return noferkash_list_tracks(file.at, file.length, lists, count, lists + count, count,
                                 lists + 2 * count, count);
}

static size_t bytes_written(enum call call, uint64_t answer) {
    size_t length = NOFERKASH_LENGTH(answer);
    return call == LIST ? 3 * sizeof(uint32_t) * length : length;
}

static uint64_t run(enum call call, const struct input *input, uint8_t *out) {
    struct bytes file = input->file, text = input->text;
    size_t out_len = buffer_for(input) - FENCE;
    switch (call) {
    case LIST:
        /* It comes from malloc, and is aligned for numbers. */
        return list(file, (uint32_t *)(void *)out);
    case TO_TEXT:
        return noferkash_file_to_text(file.at, file.length, out, out_len);
    case TIDY:
        return noferkash_tidy(file.at, file.length, out, out_len);
    case FOLD:
        return noferkash_fold(file.at, file.length, out, out_len);
    case TO_SHEET:
        return noferkash_file_to_sheet(file.at, file.length, out, out_len);
    case FROM_SHEET:
        return noferkash_sheet_to_text(input->sheet.at, input->sheet.length, out, out_len);
    case TO_FULL:
        return noferkash_text_to_file(text.at, text.length, 0, out, out_len);
    case TO_SHORT:
        return noferkash_text_to_file(text.at, text.length, 1, out, out_len);
    default:
        return noferkash_check(file.at, file.length);
    }
}

/* Adds a file with what one thread makes of it. That which is refused is its own text and sheet. */
static void add(const uint8_t *bytes, size_t length) {
    struct input *input = &inputs[input_count++];
    input->file.length = length;
    input->file.at = memcpy(room(length), bytes, length);
    input->text = input->sheet = input->file;
    size_t buffer = buffer_for(input);
    greatest_buffer = buffer > greatest_buffer ? buffer : greatest_buffer;
    uint8_t *out = room(buffer);
    for (enum call call = CHECK; call < CALLS; call++) {
        input->due[call] = run(call, input, out);
        size_t written = bytes_written(call, input->due[call]);
        input->due_bytes[call] = memcpy(room(written), out, written);
        int good = NOFERKASH_NUMBER(input->due[call]) == NOFERKASH_OK;
        struct bytes made = {input->due_bytes[call], written};
        input->text = call == TO_TEXT && good ? made : input->text;
        input->sheet = call == TO_SHEET && good ? made : input->sheet;
    }
    free(out);
}

static int is_due(enum call call, const struct input *input, uint8_t *out) {
    size_t written = bytes_written(call, input->due[call]);
    memset(out, GUARD, written + FENCE);
    int good = run(call, input, out) == input->due[call] &&
               memcmp(out, input->due_bytes[call], written) == 0;
    for (size_t i = written; i < written + FENCE; i++) {
        good = good && out[i] == GUARD;
    }
    return good;
}

/* Threads begin at different inputs and calls, and so meet in all pairs. */
static void *work(void *number) {
    size_t first = *(size_t *)number, *failures = number;
    uint8_t *out = room(greatest_buffer);
    *failures = 0;
    pthread_barrier_wait(&start);
    for (size_t i = 0; i < ROUNDS * input_count * CALLS; i++) {
        size_t at = i + first * (input_count / 2 * CALLS + 1);
        *failures += !is_due((enum call)(at % CALLS), &inputs[at / CALLS % input_count], out);
    }
    free(out);
    return NULL;
}

static void add_file(const char *name) {
    static uint8_t file[NOFERKASH_FILE_LIMIT + 1];
    FILE *stream = fopen(name, "rb");
    size_t length = stream == NULL ? 0 : fread(file, 1, sizeof file, stream);
    if (length == 0) {
        perror(name);
        exit(2);
    }
    fclose(stream);
    add(file, length);
    add(file, length - length / 4);
    file[length / 2] ^= 0x80;
    add(file, length);
}

int main(int argc, char **argv) {
    pthread_t threads[THREADS];
    size_t numbers[THREADS], failures = 0, good = 0;
    inputs = room(3 * (size_t)argc * sizeof *inputs);
    for (int i = 1; i < argc; i++) {
        add_file(argv[i]);
    }
    for (size_t i = 0; i < input_count; i++) {
        good += NOFERKASH_NUMBER(inputs[i].due[CHECK]) == NOFERKASH_OK;
    }
    pthread_barrier_init(&start, NULL, THREADS);
    for (size_t i = 0; i < THREADS; i++) {
        numbers[i] = i;
        if (pthread_create(&threads[i], NULL, work, &numbers[i]) != 0) {
            fprintf(stderr, "threads: a thread could not be made\n");
            return 2;
        }
    }
    for (size_t i = 0; i < THREADS; i++) {
        pthread_join(threads[i], NULL);
        failures += numbers[i];
    }
    printf("%d threads, %zu inputs, %zu of them good, %zu calls each: %zu not as due\n", THREADS,
           input_count, good, ROUNDS * input_count * CALLS, failures);
    return failures != 0 || good == 0 || good == input_count;
}
