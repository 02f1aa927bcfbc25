/* Reads a programme, prints its steps, and looks some up by their ids.
 *
 *     bindings/library
 *     cc -Iinclude bindings/c/example.c target/staticlib/libdrum.a -o example && ./example examples/noon.yaml hour */
#include "drum.h"

#include <stdio.h>
#include <string.h>

/* Enough for any text; static, since they would not fit on many a stack. One byte more than a text may have, so that a longer file is
 * refused and not cut. */
static uint8_t text[DRUM_TEXT_MAX + 1];
static uint8_t work[DRUM_WORK_MAX];
static uint8_t record[DRUM_RECORD_MAX];
static uint32_t lines[DRUM_LINES_MAX];

/* An item is a length of four bytes, a kind of two, and its content (docs/RECORD.md). These are for records that were checked, as every one
 * is that a call gave or found something in. */
static uint32_t length_of(const uint8_t *item) {
    return (uint32_t)item[0] | (uint32_t)item[1] << 8 | (uint32_t)item[2] << 16 | (uint32_t)item[3] << 24;
}

static const uint8_t *content_of(const uint8_t *item) { return item + 6; }

/* The n-th part of a step, from 0 on: name, id, command, value, timeout, continue on error, expect. */
static const uint8_t *part_of(const uint8_t *step, int n) {
    const uint8_t *part = content_of(step);
    while (n-- > 0) part += 6 + length_of(part);
    return part;
}

static void print_string(const uint8_t *item) { fwrite(content_of(item), 1, length_of(item), stdout); }

static void print_step(const uint8_t *step) {
    const uint8_t *id = part_of(step, 1);
    print_string(part_of(step, 2));
    if (length_of(id) > 0) {
        printf(" (");
        print_string(id);
        printf(")");
    }
}

static int refused(const uint64_t *answer) {
    printf("refused %d, line %d, step %d\n", (int)answer[1], (int)answer[2], (int)answer[3]);
    return 1;
}

static int print_steps(size_t record_len, size_t steps) {
    uint64_t answer[DRUM_ANSWER];
    /* Each lookup checks the record anew; a player that has many steps walks along their items instead. */
    for (size_t number = 1; number <= steps; number++) {
        if (drum_step(record, record_len, number, answer, DRUM_ANSWER) != DRUM_ACCEPTED) return refused(answer);
        printf("step %d, line %d: ", (int)number, (int)lines[number - 1]);
        print_step(record + answer[1]);
        printf("\n");
    }
    return 0;
}

static int look_up(size_t record_len, const char *id) {
    uint64_t answer[DRUM_ANSWER];
    switch (drum_step_by_id(record, record_len, (const uint8_t *)id, strlen(id), answer, DRUM_ANSWER)) {
    case DRUM_ACCEPTED:
        printf("id %s: ", id);
        print_step(record + answer[1]);
        printf(", %d bytes\n", (int)(answer[2] - answer[1]));
        return 0;
    case DRUM_NOTHING:
        printf("id %s: no step\n", id);
        return 0;
    default:
        return refused(answer);
    }
}

int main(int argc, char **argv) {
    uint64_t answer[DRUM_ANSWER];
    if (argc < 2) {
        fprintf(stderr, "usage: example FILE ID..\n");
        return 2;
    }
    FILE *file = fopen(argv[1], "rb");
    if (file == NULL) {
        perror(argv[1]);
        return 2;
    }
    size_t text_len = fread(text, 1, sizeof text, file);
    fclose(file);

    if (drum_read_scenario(text, text_len, work, sizeof work, record, sizeof record, lines, DRUM_LINES_MAX, answer, DRUM_ANSWER)
        != DRUM_ACCEPTED)
        return refused(answer);
    size_t record_len = answer[2], steps = answer[4];
    printf("a record of %d bytes, %d steps\n", (int)record_len, (int)steps);
    int failed = print_steps(record_len, steps);
    for (int i = 2; i < argc; i++) failed |= look_up(record_len, argv[i]);
    return failed;
}
