/* How much stack each call needs: it runs on a thread whose stack is filled with a pattern first, and what has lost the pattern is counted. */
#include "drum.h"

#include <pthread.h>
#include <stdio.h>
#include <stdlib.h>
#include <string.h>
#include <sys/mman.h>

enum { STACK = 1 << 20, PATTERN = 0xa5, LEVELS = 32, MANY = 1000 };

static uint8_t text[DRUM_TEXT_MAX], work[DRUM_WORK_MAX], record[DRUM_RECORD_MAX];
static uint32_t lines[DRUM_LINES_MAX];
static uint64_t answer[DRUM_ANSWER];
static size_t text_len, record_len;

/* A list of no command names: the header of an empty sequence. */
static const uint8_t names[6] = {0, 0, 0, 0, 4, 0};

static void *nothing(void *unused) { return unused; }

static void *read_tree(void *unused) {
    drum_read_tree(text, text_len, work, sizeof work, answer, DRUM_ANSWER);
    return unused;
}

static void *read_scenario(void *unused) {
    drum_read_scenario(text, text_len, work, sizeof work, record, sizeof record, lines, DRUM_LINES_MAX, answer, DRUM_ANSWER);
    return unused;
}

static void *check_record(void *unused) {
    drum_check_record(record, record_len, answer, DRUM_ANSWER);
    return unused;
}

static void *field(void *unused) {
    drum_field(record, record_len, 8, answer, DRUM_ANSWER);
    return unused;
}

static void *step(void *unused) {
    drum_step(record, record_len, 1, answer, DRUM_ANSWER);
    return unused;
}

static void *check_steps(void *unused) {
    drum_check_steps(record, record_len, lines, DRUM_LINES_MAX, names, sizeof names, answer, DRUM_ANSWER);
    return unused;
}

static void *step_by_id(void *unused) {
    drum_step_by_id(record, record_len, names, 1, answer, DRUM_ANSWER);
    return unused;
}

static void *value_by_key(void *unused) {
    drum_value_by_key(record, record_len, 1, names, 1, answer, DRUM_ANSWER);
    return unused;
}

static void *times(void *unused) {
    drum_times(record, record_len, 1, answer, DRUM_ANSWER);
    return unused;
}

static void *panel_name(void *unused) {
    drum_panel_name(record, record_len, answer, DRUM_ANSWER);
    return unused;
}

static void *panel_step(void *unused) {
    drum_panel_step(record, record_len, 1, answer, DRUM_ANSWER);
    return unused;
}

static void *share(void *unused) {
    static const uint32_t wishes[DRUM_DRUMS] = {0, 36, 72, 108, 144, 180, 216, 252};
    static uint32_t strokes[DRUM_DRUMS];
    drum_share(wishes, DRUM_DRUMS, 900, strokes, answer, DRUM_ANSWER);
    return unused;
}

static void *pair_logs(void *unused) {
    static uint32_t hammers[DRUM_TIMES], sounds[DRUM_TIMES], pairs[DRUM_PAIRS_MAX], lone_hammers[DRUM_TIMES], lone_sounds[DRUM_TIMES];
    for (uint32_t i = 0; i < DRUM_TIMES; i++) {
        hammers[i] = 40 * i;
        sounds[i] = 41 * i;
    }
    drum_pair_logs(hammers, DRUM_TIMES, sounds, DRUM_TIMES, pairs, DRUM_PAIRS_MAX, lone_hammers, DRUM_TIMES, lone_sounds, DRUM_TIMES,
                   answer, DRUM_ANSWER);
    return unused;
}

static size_t used(void *(*job)(void *)) {
    uint8_t *stack = mmap(NULL, STACK, PROT_READ | PROT_WRITE, MAP_PRIVATE | MAP_ANONYMOUS, -1, 0);
    pthread_attr_t attributes;
    pthread_t thread;
    size_t kept = 0;
    if (stack == MAP_FAILED) exit(1);
    memset(stack, PATTERN, STACK);
    if (pthread_attr_init(&attributes) || pthread_attr_setstack(&attributes, stack, STACK)) exit(1);
    if (pthread_create(&thread, &attributes, job, NULL) || pthread_join(thread, NULL)) exit(1);
    while (kept < STACK && stack[kept] == PATTERN) kept++;
    munmap(stack, STACK);
    return STACK - kept;
}

static size_t most;

static void measure(const char *text_name, const char *job_name, void *(*job)(void *)) {
    size_t bytes = used(job) - used(nothing);
    if (bytes > most) most = bytes;
    printf("%-28s %-20s %6zu bytes, result %llu\n", text_name, job_name, bytes, (unsigned long long)answer[0]);
}

static void put(const char *s) {
    memcpy(text + text_len, s, strlen(s));
    text_len += strlen(s);
}

/* One step, a repeat with a step in it, then a setup to nest in. */
static void begin(void) {
    text_len = 0;
    put("schema: passportsim/scenario@1\nname: n\nsteps: [{repeat: {times: 2, steps: [{delay: 1}]}}]\nsetup:");
}

/* Nested as deep as may be; the document is the first level. */
static void brackets(void) {
    begin();
    put(" ");
    for (int i = 1; i < LEVELS; i++) put("[");
    put("\"a\\n\"");
    for (int i = 1; i < LEVELS; i++) put("]");
}

static void braces(void) {
    begin();
    put(" ");
    for (int i = 1; i < LEVELS; i++) put("{a: ");
    put("\"a\\n\"");
    for (int i = 1; i < LEVELS; i++) put("}");
}

static void levels(const char *odd, const char *even) {
    begin();
    put("\n");
    for (int i = 1; i < LEVELS; i++) {
        for (int j = 0; j < i; j++) put(" ");
        put(i == LEVELS - 1 ? "a: |\n" : i % 2 ? odd : even);
    }
    for (int j = 0; j < LEVELS; j++) put(" ");
    put("x\n");
}

static void keys(void) { levels("a:\n", "a:\n"); }
static void dashes(void) { levels("-\n", "-\n"); }
static void both(void) { levels("a:\n", "-\n"); }

static void keys_behind_dashes(void) {
    begin();
    put("\n");
    for (int i = 1; i + 1 < LEVELS; i += 2) {
        for (int j = 0; j < 3 * i; j++) put(" ");
        put("- a:\n");
    }
}

/* Keys that differ; if crowded, those that stand in one word where new keys are told by bits (crates/entries/src/filter.rt). */
static const char *next_key(int crowded) {
    static unsigned n;
    static char key[9];
    uint32_t hash;
    do {
        snprintf(key, sizeof key, "%x", n++);
        hash = 0;
        for (const char *c = key; *c; c++) hash = (hash + (uint8_t)*c + 1) * 16777619u;
    } while (crowded && hash % 2048);
    return key;
}

/* In the deepest mapping of a line, or of lines, many keys. */
static void many_in_braces(int crowded) {
    begin();
    put(" ");
    for (int i = 1; i < LEVELS; i++) put("{a: ");
    text_len -= 3;
    for (int i = 0; i < MANY; i++) {
        put(next_key(crowded));
        put(": 1,");
    }
    for (int i = 1; i < LEVELS; i++) put("}");
}

static void many_in_lines(int crowded) {
    begin();
    put("\n");
    for (int i = 1; i < LEVELS; i++) {
        for (int key = 0; key < (i + 1 < LEVELS ? 1 : MANY); key++) {
            for (int j = 0; j < i; j++) put(" ");
            put(i + 1 < LEVELS ? "a" : next_key(crowded));
            put(":\n");
        }
    }
}

static void braces_many(void) { many_in_braces(0); }
static void braces_crowded(void) { many_in_braces(1); }
static void lines_many(void) { many_in_lines(0); }
static void lines_crowded(void) { many_in_lines(1); }

int main(void) {
    static const struct { const char *name; void (*make)(void); } texts[] = {
        {"31 brackets", brackets}, {"31 braces", braces}, {"31 keys", keys}, {"31 dashes", dashes}, {"keys and dashes in turn", both},
        {"keys behind dashes", keys_behind_dashes}, {"many keys in 31 braces", braces_many}, {"many that share a word", braces_crowded},
        {"many keys in lines", lines_many}, {"many lines that share a word", lines_crowded}};
    for (size_t i = 0; i < sizeof texts / sizeof *texts; i++) {
        texts[i].make();
        measure(texts[i].name, "drum_read_tree", read_tree);
        measure(texts[i].name, "drum_read_scenario", read_scenario);
        record_len = answer[0] == DRUM_ACCEPTED ? answer[2] : 0;
        measure(texts[i].name, "drum_check_record", check_record);
        measure(texts[i].name, "drum_check_steps", check_steps);
        measure(texts[i].name, "drum_field", field);
        measure(texts[i].name, "drum_step", step);
        measure(texts[i].name, "drum_step_by_id", step_by_id);
        measure(texts[i].name, "drum_value_by_key", value_by_key);
        measure(texts[i].name, "drum_times", times);
        measure(texts[i].name, "drum_panel_name", panel_name);
        measure(texts[i].name, "drum_panel_step", panel_step);
    }
    measure("eight drums", "drum_share", share);
    measure("two logs of 4,096 times", "drum_pair_logs", pair_logs);
    printf("most: %zu of DRUM_STACK's %d\n", most, DRUM_STACK);
    return most > DRUM_STACK;
}
