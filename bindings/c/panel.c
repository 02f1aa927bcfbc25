/* A panel: shows a programme's name, and each step's number, name and id. Then it shows the same of a record as a later drum may make it, with
 * kinds that this library does not know: a sequencer refuses that one, a panel does not.
 *
 *     bindings/library
 *     cc -Iinclude bindings/c/panel.c target/staticlib/libdrum.a -o panel && ./panel examples/noon.yaml */
#include "drum.h"

#include <stdio.h>
#include <string.h>

static int refused(const uint64_t *answer) {
    printf("refused %d, line %d, step %d\n", (int)answer[1], (int)answer[2], (int)answer[3]);
    return 1;
}

/* ---- the panel */

/* What is told is where an item stands. Its text is behind the six bytes of its header, and has no zero at its end. */
static void print_text(const uint8_t *record, uint64_t start, uint64_t end) {
    printf("\"");
    fwrite(record + start + 6, 1, end - start - 6, stdout);
    printf("\"");
}

static int show_step(const uint8_t *record, size_t record_len, size_t number) {
    uint64_t answer[DRUM_ANSWER];
    if (drum_panel_step(record, record_len, number, answer, DRUM_ANSWER) != DRUM_ACCEPTED) return refused(answer);
    printf("step %d: ", (int)number);
    print_text(record, answer[1], answer[2]);
    printf(", id ");
    print_text(record, answer[3], answer[4]);
    printf("\n");
    return 0;
}

static int show(const uint8_t *record, size_t record_len) {
    uint64_t answer[DRUM_ANSWER];
    if (drum_panel_name(record, record_len, answer, DRUM_ANSWER) != DRUM_ACCEPTED) return refused(answer);
    printf("on a panel: ");
    print_text(record, answer[1], answer[2]);
    printf(", %d steps\n", (int)answer[3]);
    /* Each call judges the whole record anew, so a panel asks for those steps that it has room for. */
    int failed = 0;
    for (size_t number = 1; number <= answer[3]; number++) failed |= show_step(record, record_len, number);
    return failed;
}

/* ---- a record as a later drum may make it */

enum { HEADER = 6, SCENARIO = 16, SETUP = 5, STEPS = 8 };

/* A kind that this library does not know. */
enum { LATER = 999 };

/* Each step becomes longer by less than its own length. */
static uint8_t later[2 * DRUM_RECORD_MAX];
static size_t later_len;

static uint32_t length_of(const uint8_t *item) {
    return (uint32_t)item[0] | (uint32_t)item[1] << 8 | (uint32_t)item[2] << 16 | (uint32_t)item[3] << 24;
}

static const uint8_t *content_of(const uint8_t *item) { return item + HEADER; }

static const uint8_t *end_of(const uint8_t *item) { return content_of(item) + length_of(item); }

static void put(const void *bytes, size_t n) {
    memcpy(later + later_len, bytes, n);
    later_len += n;
}

/* Begins an item, and tells where; its length is known when it ends. */
static size_t begin_item(unsigned kind) {
    const uint8_t header[HEADER] = {0, 0, 0, 0, (uint8_t)kind, (uint8_t)(kind >> 8)};
    put(header, HEADER);
    return later_len - HEADER;
}

static void end_item(size_t at) {
    size_t length = later_len - at - HEADER;
    for (int i = 0; i < 4; i++) later[at + (size_t)i] = (uint8_t)(length >> 8 * i);
}

/* An item with content that is no item. */
static void put_later(const char *content) {
    size_t at = begin_item(LATER);
    put(content, strlen(content));
    end_item(at);
}

/* A step of a new kind, with a new part behind its own. */
static void put_step(const uint8_t *step) {
    size_t at = begin_item(LATER);
    put(content_of(step), length_of(step));
    put_later("swing");
    end_item(at);
}

static void put_steps(const uint8_t *steps) {
    size_t at = begin_item(LATER);
    for (const uint8_t *step = content_of(steps); step < end_of(steps); step = end_of(step)) put_step(step);
    end_item(at);
}

/* Of the eight fields two are new, and there is a ninth. */
static void make_later(const uint8_t *record) {
    size_t at = begin_item(SCENARIO);
    const uint8_t *field = content_of(record);
    for (int place = 1; place <= 8; place++) {
        if (place == SETUP) put_later("two towers");
        else if (place == STEPS) put_steps(field);
        else put(field, HEADER + length_of(field));
        field = end_of(field);
    }
    put_later("");
    end_item(at);
}

/* ---- both records */

/* Enough for any text, and a byte more, so that a longer file is refused and not cut. */
static uint8_t text[DRUM_TEXT_MAX + 1];
static uint8_t work[DRUM_WORK_MAX];
static uint8_t record[DRUM_RECORD_MAX];
static uint32_t lines[DRUM_LINES_MAX];

static void check(const uint8_t *bytes, size_t n) {
    uint64_t answer[DRUM_ANSWER];
    printf("in a sequencer: ");
    if (drum_check_record(bytes, n, answer, DRUM_ANSWER) == DRUM_ACCEPTED) printf("%d steps\n", (int)answer[1]);
    else refused(answer);
}

int main(int argc, char **argv) {
    uint64_t answer[DRUM_ANSWER];
    if (argc != 2) {
        fprintf(stderr, "usage: panel FILE\n");
        return 2;
    }
    FILE *file = fopen(argv[1], "rb");
    if (file == NULL) {
        perror(argv[1]);
        return 2;
    }
    size_t text_len = fread(text, 1, sizeof text, file);
    fclose(file);
    if (drum_read_scenario(text, text_len, work, sizeof work, record, sizeof record, lines, DRUM_LINES_MAX, answer, DRUM_ANSWER)
        != DRUM_ACCEPTED)
        return refused(answer);
    size_t record_len = answer[2];
    check(record, record_len);
    int failed = show(record, record_len);

    make_later(record);
    printf("the same of a later drum\n");
    check(later, later_len);
    return failed | show(later, later_len);
}
