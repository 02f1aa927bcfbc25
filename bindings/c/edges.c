/* The promises of drum.h at their edges: buffers of exact size, answers that are too short, bytes that are no record. Sanitizers see what
 * this file does, and not into the library; so behind what it writes stand bytes that must stay, and a text or a panel's record ends where
 * nothing more may be read. */
#define _DEFAULT_SOURCE /* mmap */
#include "drum.h"

#include <stdio.h>
#include <stdlib.h>
#include <string.h>
#include <sys/mman.h>

static int failed;

static void expect(int holds, const char *what) {
    if (holds) return;
    printf("FAILED %s\n", what);
    failed = 1;
}

static const char noon[] = "schema: passportsim/scenario@1\nname: noon\nsteps:\n  - strike: {strokes: 12}\n    id: hour\n  - repeat: {times: 3, steps: []}";

static int zeros(const uint8_t *bytes, size_t n) {
    for (size_t i = 0; i < n; i++)
        if (bytes[i] != 0) return 0;
    return 1;
}

/* Where a page ends behind which nothing may be read. */
static uint8_t *page_end(void) {
    enum { PAGE = 4096 };
    static uint8_t *end;
    if (end) return end;
    uint8_t *pages = mmap(NULL, 2 * PAGE, PROT_READ | PROT_WRITE, MAP_PRIVATE | MAP_ANONYMOUS, -1, 0);
    if (pages == MAP_FAILED || mprotect(pages + PAGE, PAGE, PROT_NONE)) exit(2);
    return end = pages + PAGE;
}

/* A copy of bytes that ends there, until the next. */
static uint8_t *at_page_end(const void *bytes, size_t n) { return memcpy(page_end() - n, bytes, n); }

/* Lends so much, and has an element behind each output. */
static uint32_t read_with(size_t work_len, size_t record_len, size_t lines_len, uint64_t *answer, size_t answer_len) {
    uint8_t *text = at_page_end(noon, sizeof noon - 1), *work = malloc(work_len + 1), *record = malloc(record_len + 1);
    uint32_t *lines = malloc((lines_len + 1) * sizeof *lines);
    if (!work || !record || !lines) exit(2);
    memset(work, 7, work_len + 1);
    memset(record, 7, record_len + 1);
    memset(lines, 7, (lines_len + 1) * sizeof *lines);
    uint32_t result = drum_read_scenario(text, sizeof noon - 1, work, work_len, record, record_len, lines, lines_len, answer, answer_len);
    expect(work[work_len] == 7 && record[record_len] == 7 && lines[lines_len] == 0x07070707, "nothing is written behind a buffer");
    if (result == DRUM_REFUSED) {
        expect(zeros(work, work_len) && zeros(record, record_len), "a refusal leaves zeros");
        for (size_t i = 0; i < lines_len; i++) expect(lines[i] == 0, "a refusal leaves zeros in the lines");
    }
    free(work);
    free(record);
    free(lines);
    return result;
}

static void exact(void) {
    uint64_t answer[DRUM_ANSWER + 1] = {7, 7, 7, 7, 7, 7};
    expect(read_with(1000, 1000, 10, answer, DRUM_ANSWER + 1) == DRUM_ACCEPTED && answer[0] == DRUM_ACCEPTED, "accepted");
    expect(answer[3] == 8 && answer[4] == 2 && answer[5] == 7, "four bytes for each line, two steps, and the sixth place kept");
    size_t tree = answer[1], record = answer[2];
    expect(read_with(tree, record, 2, answer, DRUM_ANSWER) == DRUM_ACCEPTED, "exactly enough");
    expect(read_with(tree - 1, record, 2, answer, DRUM_ANSWER) == DRUM_REFUSED && answer[1] == 50, "50");
    expect(read_with(tree, record, 1, answer, DRUM_ANSWER) == DRUM_REFUSED && answer[1] == 51, "51");
    expect(read_with(tree, record - 1, 2, answer, DRUM_ANSWER) == DRUM_REFUSED && answer[1] == 52, "52");
    expect(read_with(0, 0, 0, answer, DRUM_ANSWER) == DRUM_REFUSED && answer[1] == 50, "nothing lent");
}

/* As many numbers as there are places. */
static void short_answers(void) {
    for (size_t n = 0; n <= DRUM_ANSWER; n++) {
        uint64_t answer[DRUM_ANSWER] = {7, 7, 7, 7, 7};
        const uint64_t whole[DRUM_ANSWER] = {DRUM_REFUSED, 21, 0, 0, 0};
        uint8_t work[16], record[16];
        uint32_t lines[1];
        expect(drum_read_scenario((const uint8_t *)"a", 1, work, sizeof work, record, sizeof record, lines, 1, answer, n) == DRUM_REFUSED,
               "the result is told without places");
        for (size_t i = 0; i < DRUM_ANSWER; i++) expect(answer[i] == (i < n ? whole[i] : 7), "a short answer");
    }
}

static void lookups(void) {
    static uint8_t work[1000], record[1000];
    uint32_t lines[10];
    uint64_t answer[DRUM_ANSWER];
    static const uint8_t none[] = {0, 0, 0, 0, 4, 0}, strike[] = {12, 0, 0, 0, 4, 0, 6, 0, 0, 0, 3, 0, 's', 't', 'r', 'i', 'k', 'e'};
    drum_read_scenario((const uint8_t *)noon, sizeof noon - 1, work, sizeof work, record, sizeof record, lines, 10, answer, DRUM_ANSWER);
    size_t n = answer[2];
    expect(drum_check_record(record, n, answer, DRUM_ANSWER) == DRUM_ACCEPTED && answer[1] == 2, "the check counts the steps");
    expect(drum_check_record(record, n - 1, answer, DRUM_ANSWER) == DRUM_REFUSED && answer[1] == 40, "no record");
    expect(drum_check_steps(record, n, lines, 2, strike, sizeof strike, answer, DRUM_ANSWER) == DRUM_ACCEPTED && answer[1] == 2, "commands known");
    expect(drum_check_steps(record, n, lines, 2, none, sizeof none, answer, DRUM_ANSWER) == DRUM_REFUSED && answer[1] == 36 && answer[2] == 4
               && answer[3] == 1, "36 at line 4, step 1");
    expect(drum_check_steps(record, n, lines, 0, none, sizeof none, answer, DRUM_ANSWER) == DRUM_REFUSED && answer[2] == 0, "36 without lines");
    expect(drum_check_steps(record, n, lines, 2, none, 5, answer, DRUM_ANSWER) == DRUM_REFUSED && answer[1] == 40, "no list of names");
    expect(drum_field(record, n, 1, answer, DRUM_ANSWER) == DRUM_ACCEPTED && answer[1] == 6 && answer[2] == 16, "the name");
    expect(drum_field(record, n, 9, answer, DRUM_ANSWER) == DRUM_REFUSED && answer[1] == 53, "place 9");
    expect(drum_field(record, n, 0, answer, DRUM_ANSWER) == DRUM_REFUSED && answer[1] == 53, "place 0");
    expect(drum_step(record, n, 2, answer, DRUM_ANSWER) == DRUM_ACCEPTED && answer[2] == n, "the last step ends the record");
    expect(drum_step(record, n, 3, answer, DRUM_ANSWER) == DRUM_REFUSED && answer[1] == 53, "step 3");
    expect(drum_step(record, n, SIZE_MAX, answer, DRUM_ANSWER) == DRUM_REFUSED && answer[1] == 53, "the largest number");
    expect(drum_step_by_id(record, n, (const uint8_t *)"hour", 4, answer, DRUM_ANSWER) == DRUM_ACCEPTED, "a step by its id");
    expect(drum_step_by_id(record, n, (const uint8_t *)"hour", 3, answer, DRUM_ANSWER) == DRUM_NOTHING && answer[1] == 0, "no step with this id");
    expect(drum_step_by_id(record, n, (const uint8_t *)"", 0, answer, DRUM_ANSWER) == DRUM_NOTHING, "the empty id");
    expect(drum_value_by_key(record, n, 1, (const uint8_t *)"strokes", 7, answer, DRUM_ANSWER) == DRUM_ACCEPTED && answer[2] - answer[1] == 14
               && record[answer[1] + 6] == 12, "a value by its key");
    expect(drum_value_by_key(record, n, 1, (const uint8_t *)"bell", 4, answer, DRUM_ANSWER) == DRUM_NOTHING, "no value");
    expect(drum_times(record, n, 2, answer, DRUM_ANSWER) == DRUM_ACCEPTED && answer[1] == 3, "times");
    expect(drum_times(record, n, 1, answer, DRUM_ANSWER) == DRUM_REFUSED && answer[1] == 38 && answer[3] == 1, "38 at step 1");
}

/* Of several steps with one id the first is found; those inside a `repeat` are passed over. */
static void shared_ids(void) {
    static const char text[] = "schema: passportsim/scenario@1\nname: n\nsteps:\n  - repeat: {times: 2, steps: [{id: refrain, strike: 1}]}\n"
                               "  - strike: 1\n    id: refrain2\n  - strike: 2\n    id: refrain\n  - strike: 3\n    id: refrain";
    static uint8_t work[1000], record[1000];
    uint32_t lines[10];
    uint64_t answer[DRUM_ANSWER], third[DRUM_ANSWER];
    drum_read_scenario((const uint8_t *)text, sizeof text - 1, work, sizeof work, record, sizeof record, lines, 10, answer, DRUM_ANSWER);
    size_t n = answer[2];
    drum_step(record, n, 3, third, DRUM_ANSWER);
    expect(drum_step_by_id(record, n, (const uint8_t *)"refrain", 7, answer, DRUM_ANSWER) == DRUM_ACCEPTED && answer[1] == third[1]
               && answer[2] == third[2], "the first of several steps with an id");
}

/* Every byte of a record changed in turn: each answer is a record's or 40. */
static void damaged(void) {
    static uint8_t work[1000], record[1000];
    uint32_t lines[10];
    uint64_t answer[DRUM_ANSWER];
    drum_read_scenario((const uint8_t *)noon, sizeof noon - 1, work, sizeof work, record, sizeof record, lines, 10, answer, DRUM_ANSWER);
    size_t n = answer[2];
    for (size_t i = 0; i < n; i++) {
        record[i] ^= 1;
        uint32_t result = drum_check_record(record, n, answer, DRUM_ANSWER);
        expect(result == DRUM_ACCEPTED || answer[1] == 40, "a damaged record");
        expect(drum_step(record, n, 1, answer, DRUM_ANSWER) == result, "a lookup checks");
        record[i] ^= 1;
    }
}

/* As many steps as a text can have. */
static void most_steps(void) {
    static uint8_t text[DRUM_TEXT_MAX], work[DRUM_WORK_MAX], record[DRUM_RECORD_MAX];
    static uint32_t lines[DRUM_LINES_MAX];
    uint64_t answer[DRUM_ANSWER];
    static const char begin[] = "{schema: passportsim/scenario@1,name: n,steps: [";
    size_t n = sizeof begin - 1;
    uint64_t steps = 0;
    memcpy(text, begin, n);
    for (; n + 6 <= sizeof text; n += 4, steps++) memcpy(text + n, "{a:}", 4);
    memcpy(text + n, "]}", 2);
    expect(drum_read_scenario(text, n + 2, work, sizeof work, record, sizeof record, lines, DRUM_LINES_MAX, answer, DRUM_ANSWER)
               == DRUM_ACCEPTED && answer[4] == steps, "as many steps as a text can have");
}

static uint32_t *copied(const uint32_t *given, size_t n) {
    uint32_t *copy = malloc(n > 0 ? n * sizeof *copy : 1);
    if (!copy) exit(2);
    if (n > 0) memcpy(copy, given, n * sizeof *copy);
    return copy;
}

static uint32_t *sevens(size_t n) {
    uint32_t *list = malloc(n * sizeof *list);
    if (!list) exit(2);
    memset(list, 7, n * sizeof *list);
    return list;
}

static uint32_t shared(const uint32_t *given, size_t n, uint32_t allowed, uint32_t *strokes, uint64_t *answer) {
    uint32_t *wishes = copied(given, n), *lent = sevens(DRUM_DRUMS);
    uint32_t result = drum_share(wishes, n, allowed, lent, answer, DRUM_ANSWER);
    memcpy(strokes, lent, DRUM_DRUMS * sizeof *lent);
    free(wishes);
    free(lent);
    return result;
}

/* Drums on one supply: all eight numbers are written, and the answer has none. */
static void shares(void) {
    static const uint32_t uneven[] = {1, 9, 9}, most[] = {255, 255, 255, 255, 255, 255, 255, 255, 0}, over[] = {256}, none[DRUM_DRUMS];
    static const uint32_t given[DRUM_DRUMS] = {1, 4, 3};
    uint32_t strokes[DRUM_DRUMS];
    uint64_t answer[DRUM_ANSWER];
    static const uint64_t accepted[DRUM_ANSWER] = {DRUM_ACCEPTED}, refused[DRUM_ANSWER] = {DRUM_REFUSED, 61};
    expect(shared(uneven, 3, 8, strokes, answer) == DRUM_ACCEPTED && !memcmp(answer, accepted, sizeof answer), "shares are accepted");
    expect(!memcmp(strokes, given, sizeof strokes), "first shares, then two rounds");
    expect(shared(most, 8, UINT32_MAX, strokes, answer) == DRUM_ACCEPTED && !memcmp(strokes, most, sizeof strokes), "all that is wished");
    expect(shared(most, 8, 7, strokes, answer) == DRUM_REFUSED && answer[1] == 62 && !memcmp(strokes, none, sizeof strokes), "62 leaves zeros");
    expect(shared(most, 9, 9, strokes, answer) == DRUM_REFUSED && answer[1] == 61 && !memcmp(strokes, none, sizeof strokes), "nine drums");
    expect(shared(none, 0, 9, strokes, answer) == DRUM_REFUSED && answer[1] == 61 && !memcmp(strokes, none, sizeof strokes), "no drum");
    expect(shared(over, 1, 0, strokes, answer) == DRUM_REFUSED && !memcmp(answer, refused, sizeof answer), "61 before 62");
}

/* Lends lists of exactly so many places, with a number behind them that must stay, and joins them: eight numbers of all three. */
static uint32_t paired(const uint32_t *hammers, size_t h, const uint32_t *sounds, size_t s, const size_t places[3], uint32_t joined[8],
                       uint64_t *answer) {
    uint32_t *logs[2] = {copied(hammers, h), copied(sounds, s)}, *lists[3];
    for (int k = 0; k < 3; k++) lists[k] = sevens(places[k] + 1);
    uint32_t result = drum_pair_logs(logs[0], h, logs[1], s, lists[0], places[0], lists[1], places[1], lists[2], places[2], answer, DRUM_ANSWER);
    memset(joined, 0, 8 * sizeof *joined);
    for (size_t k = 0, n = 0; k < 3; k++) {
        expect(lists[k][places[k]] == 0x07070707, "nothing is written behind a list");
        for (size_t i = 0; i < places[k]; i++) {
            expect(result == DRUM_ACCEPTED || lists[k][i] == 0, "a refusal leaves zeros in the lists");
            if (n < 8) joined[n++] = lists[k][i];
        }
        free(lists[k]);
    }
    free(logs[0]);
    free(logs[1]);
    return result;
}

/* A hammer log against a microphone log: each list too short by one, each refusal beside the later ones, logs as long as may be. */
static void logs(void) {
    static const uint32_t hammers[] = {20, 200, 300}, sounds[] = {0, 39, 60, 260}, top[] = {UINT32_MAX}, zero[DRUM_TIMES + 1], falling[] = {2, 1};
    static const uint32_t lists[8] = {0, 0, 2, 3, 1, 1, 2}, kept[8] = {0, 0, 2, 3, 0x07070707, 1, 0x07070707, 1};
    static const uint64_t counts[DRUM_ANSWER] = {DRUM_ACCEPTED, 2, 1, 2}, refused[DRUM_ANSWER] = {DRUM_REFUSED, 65};
    static const size_t none[3], enough[3] = {4, 1, 2}, more[3] = {5, 2, 3}, most[3] = {DRUM_PAIRS_MAX, DRUM_TIMES, DRUM_TIMES};
    uint32_t joined[8];
    uint64_t answer[DRUM_ANSWER];
    expect(paired(hammers, 3, sounds, 4, enough, joined, answer) == DRUM_ACCEPTED && !memcmp(answer, counts, sizeof answer), "logs are paired");
    expect(!memcmp(joined, lists, sizeof joined), "the three lists");
    expect(paired(hammers, 3, sounds, 4, more, joined, answer) == DRUM_ACCEPTED && !memcmp(joined, kept, sizeof joined), "the rest is kept");
    for (int k = 0; k < 3; k++) {
        size_t places[3] = {enough[0], enough[1], enough[2]};
        places[k]--;
        expect(paired(hammers, 3, sounds, 4, places, joined, answer) == DRUM_REFUSED && !memcmp(answer, refused, sizeof answer), "65");
    }
    expect(paired(top, 1, zero, 1, most, joined, answer) == DRUM_ACCEPTED && answer[1] == 0 && answer[2] == 1 && answer[3] == 1, "no wrap");
    expect(paired(zero, 0, zero, 0, none, joined, answer) == DRUM_ACCEPTED && answer[1] == 0, "empty logs");
    expect(paired(zero, DRUM_TIMES, zero, DRUM_TIMES, most, joined, answer) == DRUM_ACCEPTED && answer[1] == DRUM_TIMES, "as many as may be");
    expect(paired(zero, DRUM_TIMES, top, 1, most, joined, answer) == DRUM_ACCEPTED && answer[2] == DRUM_TIMES, "as many alone");
    expect(paired(falling, 2, zero, 0, none, joined, answer) == DRUM_REFUSED && answer[1] == 63, "63 before 65");
    expect(paired(falling, 2, zero, DRUM_TIMES + 1, more, joined, answer) == DRUM_REFUSED && answer[1] == 64, "64 before 63");
}

static uint32_t panel_name(const uint8_t *record, size_t n, uint64_t *answer, size_t answer_len) {
    return drum_panel_name(at_page_end(record, n), n, answer, answer_len);
}

static uint32_t panel_step(const uint8_t *record, size_t n, size_t number, uint64_t *answer, size_t answer_len) {
    return drum_panel_step(at_page_end(record, n), n, number, answer, answer_len);
}

/* A record of kinds that this library does not know, but for the first and for the texts: a name, six items, the steps and a ninth item. The
 * second step has a third part. What a panel passes over is no items and no UTF-8. */
static const uint8_t later[] = {
    107, 0, 0, 0, 16, 0,
    1, 0, 0, 0, 3, 0, 'n',
    2, 0, 0, 0, 9, 9, 0xff, 0xff, 0, 0, 0, 0, 9, 9, 0, 0, 0, 0, 9, 9, 0, 0, 0, 0, 9, 9, 0, 0, 0, 0, 9, 9, 0, 0, 0, 0, 9, 9,
    49, 0, 0, 0, 9, 9,
    14, 0, 0, 0, 9, 9, 1, 0, 0, 0, 3, 0, 'a', 1, 0, 0, 0, 3, 0, 'b',
    23, 0, 0, 0, 9, 9, 0, 0, 0, 0, 3, 0, 4, 0, 0, 0, 3, 0, 0xf0, 0x9f, 0x94, 0x94, 1, 0, 0, 0, 9, 9, 0xff,
    1, 0, 0, 0, 9, 9, 0xff};

/* What a panel is told of it; the seven is kept behind the five numbers of an answer. */
static const uint64_t later_name[DRUM_ANSWER + 1] = {DRUM_ACCEPTED, 6, 13, 2, 0, 7};
static const uint64_t later_steps[2][DRUM_ANSWER + 1] = {{DRUM_ACCEPTED, 63, 70, 70, 77, 7}, {DRUM_ACCEPTED, 83, 89, 89, 99, 7}};

static int is_same(const uint64_t *answer, const uint64_t *whole) { return !memcmp(answer, whole, DRUM_ANSWER * sizeof *whole); }

static int is_shown(const uint8_t *record, size_t n) {
    uint64_t answer[DRUM_ANSWER];
    if (panel_name(record, n, answer, DRUM_ANSWER) != DRUM_ACCEPTED || !is_same(answer, later_name)) return 0;
    for (size_t i = 0; i < 2; i++)
        if (panel_step(record, n, i + 1, answer, DRUM_ANSWER) != DRUM_ACCEPTED || !is_same(answer, later_steps[i])) return 0;
    return 1;
}

/* Refused with 55, whatever is asked for. */
static int is_not_shown(const uint8_t *record, size_t n) {
    static const uint64_t refused[DRUM_ANSWER] = {DRUM_REFUSED, 55};
    static const size_t numbers[] = {0, 1, 2, 3, SIZE_MAX};
    uint64_t answer[DRUM_ANSWER];
    if (panel_name(record, n, answer, DRUM_ANSWER) != DRUM_REFUSED || !is_same(answer, refused)) return 0;
    for (size_t i = 0; i < sizeof numbers / sizeof *numbers; i++)
        if (panel_step(record, n, numbers[i], answer, DRUM_ANSWER) != DRUM_REFUSED || !is_same(answer, refused)) return 0;
    return 1;
}

/* What may be otherwise, byte by byte, and what may not. */
static void panels(void) {
    static const struct { size_t at; uint8_t byte; const char *what; } kept[] = {
        {17, 3, "a text that is passed over"}, {17, 16, "another kind beside the name"}, {55, 18, "another kind of list"},
        {61, 19, "another kind of step"}, {103, 3, "another kind in a step"}, {110, 5, "another kind behind the steps"}};
    static const struct { size_t at; uint8_t byte; const char *what; } broken[] = {
        {4, 17, "another kind outside"}, {5, 1, "another kind outside, in its higher byte"}, {0, 106, "a byte behind the record"},
        {0, 108, "a byte too few"}, {10, 4, "a name of another kind"}, {12, 0xff, "a name that is not UTF-8"}, {13, 14, "seven items"},
        {13, 3, "items that do not fill the record"}, {51, 48, "a list of steps cut short"}, {63, 8, "a step of one item"},
        {67, 2, "a step's name of another kind"}, {69, 0xff, "a step's name that is not UTF-8"}, {74, 0, "an id of another kind"},
        {76, 0xff, "an id that is not UTF-8"}, {95, 0xff, "an id that is not UTF-8, in the last step"}, {99, 0, "a step that is not filled"}};
    uint8_t record[sizeof later + 1] = {0};
    memcpy(record, later, sizeof later);
    expect(is_shown(later, sizeof later), "a panel shows what it does not know");
    for (size_t i = 0; i < sizeof kept / sizeof *kept; i++) {
        record[kept[i].at] = kept[i].byte;
        expect(is_shown(record, sizeof later), kept[i].what);
        record[kept[i].at] = later[kept[i].at];
    }
    for (size_t i = 0; i < sizeof broken / sizeof *broken; i++) {
        record[broken[i].at] = broken[i].byte;
        expect(is_not_shown(record, sizeof later), broken[i].what);
        record[broken[i].at] = later[broken[i].at];
    }
    for (size_t n = 0; n < sizeof later; n++) expect(is_not_shown(later, n), "a record cut short");
    expect(is_not_shown(record, sizeof record), "a record and a byte");
}

static void panel_numbers(void) {
    static const uint64_t refused[DRUM_ANSWER] = {DRUM_REFUSED, 53};
    static const size_t numbers[] = {0, 3, SIZE_MAX};
    uint64_t answer[DRUM_ANSWER];
    for (size_t i = 0; i < sizeof numbers / sizeof *numbers; i++)
        expect(panel_step(later, sizeof later, numbers[i], answer, DRUM_ANSWER) == DRUM_REFUSED && is_same(answer, refused), "53 on a panel");
}

/* As many numbers as there are places, from none to one more than there are numbers. */
static void panel_answers(void) {
    static const uint64_t refused[DRUM_ANSWER + 1] = {DRUM_REFUSED, 55, 0, 0, 0, 7};
    for (size_t places = 0; places <= DRUM_ANSWER + 1; places++) {
        uint64_t name[] = {7, 7, 7, 7, 7, 7}, step[] = {7, 7, 7, 7, 7, 7}, none[] = {7, 7, 7, 7, 7, 7}, no_step[] = {7, 7, 7, 7, 7, 7};
        expect(panel_name(later, sizeof later, name, places) == DRUM_ACCEPTED, "the name's result");
        expect(panel_step(later, sizeof later, 2, step, places) == DRUM_ACCEPTED, "the step's result");
        expect(panel_name(later, 0, none, places) == DRUM_REFUSED, "no record's result");
        expect(panel_step(later, 0, 0, no_step, places) == DRUM_REFUSED, "no record's result for a step");
        for (size_t i = 0; i <= DRUM_ANSWER; i++) {
            expect(name[i] == (i < places ? later_name[i] : 7) && step[i] == (i < places ? later_steps[1][i] : 7), "a short answer of a panel");
            expect(none[i] == (i < places ? refused[i] : 7) && no_step[i] == none[i], "a short refusal of a panel");
        }
    }
}

/* What the check accepts is shown as the lookups find it. Each byte of a record is changed in turn. */
static void panels_and_lookups(void) {
    static uint8_t work[1000], record[1000];
    uint32_t lines[10];
    uint64_t answer[DRUM_ANSWER], shown[DRUM_ANSWER];
    drum_read_scenario((const uint8_t *)noon, sizeof noon - 1, work, sizeof work, record, sizeof record, lines, 10, answer, DRUM_ANSWER);
    size_t n = answer[2];
    drum_field(record, n, 1, answer, DRUM_ANSWER);
    expect(panel_name(record, n, shown, DRUM_ANSWER) == DRUM_ACCEPTED && shown[1] == answer[1] && shown[2] == answer[2] && shown[3] == 2,
           "a panel's name is the field's");
    drum_step_by_id(record, n, (const uint8_t *)"hour", 4, answer, DRUM_ANSWER);
    expect(panel_step(record, n, 1, shown, DRUM_ANSWER) == DRUM_ACCEPTED && shown[1] == answer[1] + 6 && shown[2] == shown[3]
               && shown[4] - shown[3] == 10 && !memcmp(record + shown[3] + 6, "hour", 4), "a panel's step is the lookup's");
    for (size_t i = 0; i < n; i++) {
        record[i] ^= 1;
        uint32_t check = drum_check_record(record, n, answer, DRUM_ANSWER), result = panel_name(record, n, shown, DRUM_ANSWER);
        expect(check != DRUM_ACCEPTED || (result == DRUM_ACCEPTED && shown[3] == answer[1]), "a panel shows what the check accepts");
        expect(result == DRUM_ACCEPTED || is_not_shown(record, n), "a damaged record on a panel");
        record[i] ^= 1;
    }
}

/* More bytes than the check accepts: the item behind the name has 1,048,576. */
static void large_panel(void) {
    static const uint8_t begin[] = {0x31, 0, 0x10, 0, 16, 0, 1, 0, 0, 0, 3, 0, 'n', 0, 0, 0x10, 0, 0, 0};
    static uint8_t record[DRUM_RECORD_MAX + 55];
    uint64_t answer[DRUM_ANSWER];
    memcpy(record, begin, sizeof begin);
    expect(drum_panel_name(record, sizeof record, answer, DRUM_ANSWER) == DRUM_ACCEPTED && answer[2] == 13 && answer[3] == 0, "a large record");
    expect(drum_panel_step(record, sizeof record, 1, answer, DRUM_ANSWER) == DRUM_REFUSED && answer[1] == 53, "53 in a large record");
    expect(drum_check_record(record, sizeof record, answer, DRUM_ANSWER) == DRUM_REFUSED && answer[1] == 40, "40 for a large record");
}

int main(void) {
    exact();
    short_answers();
    lookups();
    shared_ids();
    damaged();
    most_steps();
    shares();
    logs();
    panels();
    panel_numbers();
    panel_answers();
    panels_and_lookups();
    large_panel();
    if (!failed) printf("ok edges\n");
    return failed;
}
