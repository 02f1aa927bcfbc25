/* The drum reader: programme texts to records, what can be asked of a record, what a panel shows of one, how drums share a supply, and what a
 * microphone heard of the hammers.
 *
 *     bindings/library                                      writes target/staticlib/libdrum.a (x86-64 Linux)
 *     cc -Iinclude player.c target/staticlib/libdrum.a
 *
 * Every function behind this header is proved: it answers what documents 01 and 02 say, stays within the buffers that it is lent, and ends, for
 * any bytes whatever. docs/RECORD.md has the layout of a record, docs/REFUSALS.md the refusals.
 *
 * Buffers. Each comes as a pointer and the number of its elements, but for the eight numbers that drum_share writes. Inputs (const) are
 * read and never written. Outputs are written from the front; what stands behind what was written is kept. A refused text leaves zeros in
 * work, record and lines, refused logs in the three lists, to their last element. No pointer may be NULL, even where its length is 0.
 * Outputs may not overlap each other or an input. Nothing is kept of any of them when a call returns.
 *
 * Threads. There is no state: calls may run on several threads at the same time, each with outputs of its own. No memory is allocated, no
 * lock is taken, errno is not touched, and no other function is called but memset.
 *
 * Stack. See DRUM_STACK.
 *
 * Time. Reading takes time in proportion to the text and its tree, the check of a record in proportion to its bytes; mappings whose keys were
 * made to look alike cost more, some 0.3 seconds at most in a record of 1,048,576 bytes. Every lookup checks the record first. Both calls of
 * a panel take time in proportion to the bytes, whatever these are. Two logs take time in proportion to their lengths. docs/SPEED.md has what
 * was measured, and the bounds. */
#ifndef DRUM_H
#define DRUM_H

#include <stddef.h>
#include <stdint.h>

#ifdef __cplusplus
extern "C" {
#endif

/* Every answer is DRUM_ANSWER numbers, the first of which is the result too:
 *
 *     answer[0]        answer[1]  answer[2]  answer[3]  answer[4]
 *     DRUM_ACCEPTED    the numbers that stand with each function, then 0
 *     DRUM_REFUSED     number     line       step       0
 *     DRUM_NOTHING     0          0          0          0
 *
 * Lines and steps count from 1; either is 0 where the refusal names none. An array of fewer than DRUM_ANSWER elements gets as many of
 * the numbers as it has, from the front, and one of more keeps what it has behind them; so who needs the result alone lends an array
 * with a length of 0. */
#define DRUM_ANSWER 5
#define DRUM_ACCEPTED 0
#define DRUM_REFUSED 1
#define DRUM_NOTHING 2

/* A text may have so many bytes; a longer one is refused (1). */
#define DRUM_TEXT_MAX 65535

/* Sizes that are enough for any text: of work and record more is never used, and no text has more steps. A text that is refused with 50,
 * 51 or 52 when lent these is refused with any more, too. */
#define DRUM_WORK_MAX 1048576
#define DRUM_RECORD_MAX 1048576
#define DRUM_LINES_MAX 16384

/* Bytes of stack that are enough for a call. bindings/c/stack.c measures them on texts and records as deep as may be, with many keys: some
 * 60,000 bytes at most for the two readings (of which a table of lines is 16,384, and telling keys apart another 16,384), some 20,000 for
 * the rest. */
#define DRUM_STACK 65536

/* The most drums on one supply; drum_share always writes so many numbers. */
#define DRUM_DRUMS 8

/* The most times of a log, and numbers of pairs that are enough for any two logs; of lone hammers and of lone sounds DRUM_TIMES are. */
#define DRUM_TIMES 4096
#define DRUM_PAIRS_MAX 8192

/* Reads the tree of a text into work. Accepted: the bytes of the tree. */
uint32_t drum_read_tree(const uint8_t *text, size_t text_len, uint8_t *work, size_t work_len, uint64_t *answer, size_t answer_len);

/* Reads a programme: its tree into work, its record into record, and the line of each step into lines (0 for a step that has none of
 * its own). Accepted: the bytes of the tree, the bytes of the record, the bytes of the lines (four for each) and the number of steps. */
uint32_t drum_read_scenario(const uint8_t *text, size_t text_len, uint8_t *work, size_t work_len, uint8_t *record, size_t record_len,
                            uint32_t *lines, size_t lines_len, uint64_t *answer, size_t answer_len);

/* Whether bytes are a record. Accepted: the number of steps. Refused with 40. */
uint32_t drum_check_record(const uint8_t *record, size_t record_len, uint64_t *answer, size_t answer_len);

/* Whether the drum has the commands of a record's steps, and whether each `repeat` holds steps. The commands that are built in are known;
 * names is the list of the others: an item of kind 4 that holds items of kind 3 (docs/RECORD.md), with nothing behind it. lines are those
 * that drum_read_scenario gave, for refusals to name; a step beyond them has line 0. Accepted: the number of steps. Refused with 36, 37 and,
 * for what stands inside a `repeat`, 31 to 35; with 40 for what is no record or no such list. */
uint32_t drum_check_steps(const uint8_t *record, size_t record_len, const uint32_t *lines, size_t lines_len, const uint8_t *names,
                          size_t names_len, uint64_t *answer, size_t answer_len);

/* The lookups. Accepted: where the found item begins and where it ends in the record, its header of six bytes included. Refused with 40
 * for what is no record; with 53 for a place that is not 1 to 8, or a number that is 0 or above the number of steps. */

/* The field at a place: 1 name, 2 description, 3 tags, 4 image, 5 setup, 6 defaults, 7 fail_on, 8 steps. */
uint32_t drum_field(const uint8_t *record, size_t record_len, size_t place, uint64_t *answer, size_t answer_len);

/* The step with this number, from 1 on. */
uint32_t drum_step(const uint8_t *record, size_t record_len, size_t number, uint64_t *answer, size_t answer_len);

/* The step with this id, or nothing; of several the one with the smallest number. An empty id finds nothing, and the ids of the steps inside
 * a `repeat` are not looked for. */
uint32_t drum_step_by_id(const uint8_t *record, size_t record_len, const uint8_t *id, size_t id_len, uint64_t *answer, size_t answer_len);

/* The value beside a key in the mapping that stands beside the command of the step with this number, or nothing: as `strokes` in
 * `strike: {bell: great, strokes: 12}`. */
uint32_t drum_value_by_key(const uint8_t *record, size_t record_len, size_t number, const uint8_t *key, size_t key_len,
                           uint64_t *answer, size_t answer_len);

/* How often the step with this number is repeated: the value beside its key `times`. Accepted: that number, from 1 to 4,294,967,295. Refused
 * with 38 or 39 for another value or none, and like the lookups. */
uint32_t drum_times(const uint8_t *record, size_t record_len, size_t number, uint64_t *answer, size_t answer_len);

/* What a panel shows of a record. A panel on a wall outlives drums, so it takes records with kinds that this library does not know: it looks
 * at the programme's name and at each step's name and id, and passes over every other item by its length, whatever its kind and content.
 * Accepted is one item of kind 16, with nothing behind it, that items fill: the first is the programme's name, the eighth, of any kind, is
 * filled by the steps, and more may follow. A step is an item of any kind that items fill: the first is its name, the second its id, and more
 * may follow. Names and ids are of kind 3, in UTF-8. What drum_check_record accepts is accepted here too, with the count, the names and the
 * ids that the lookups give; and no size is too large. Refused with 55 for all other bytes, whatever is asked for, since every step is judged
 * before anything is given. No refusal names a line or a step. Items are told by where they begin and end, headers included, as above. */

/* The programme's name. Accepted: where its item begins, where it ends, and the number of steps. */
uint32_t drum_panel_name(const uint8_t *record, size_t record_len, uint64_t *answer, size_t answer_len);

/* The name and the id of the step with this number, from 1 on. Accepted: where the name's item begins and where it ends, then the same of the
 * id's; either has no text if there is none. Refused with 53 for a number that is 0 or above the number of steps, where not with 55. */
uint32_t drum_panel_step(const uint8_t *record, size_t record_len, size_t number, uint64_t *answer, size_t answer_len);

/* Several drums on one supply: what each gets in a beat. wishes has the strokes that each drum wants, up to 255, for 1 to 8 drums; the supply
 * allows so many strokes, at least one for each drum. Each drum first gets the smaller of its wish and its part of what is allowed, rounded
 * down; what remains goes out one stroke at a time, in the order of the drums, round after round, to those that still want. strokes is eight
 * numbers, all of them written: what each drum gets, 0 for a drum that is not there, and 0 for all on a refusal. Accepted: no numbers.
 * Refused with 61 for no drum, more than 8 or a wish above 255; then with 62 where fewer strokes are allowed than there are drums. Nothing is
 * carried from one beat to the next. */
uint32_t drum_share(const uint32_t *wishes, size_t wishes_len, uint32_t allowed, uint32_t strokes[DRUM_DRUMS], uint64_t *answer,
                    size_t answer_len);

/* A hammer log against a microphone log: which hammer was heard as which sound. hammers and sounds are times in milliseconds, none below the
 * one before it, at most 4,096 of each. The first unplaced of each log are a pair if they lie at most 40 ms apart, else the earlier is alone;
 * behind the end of one log the rest of the other is. Positions count from 0: pairs gets two numbers for each pair, the hammer's and then the
 * sound's, lone_hammers and lone_sounds those that are alone, all in rising order. No other pairs of hammers and sounds, at most 40 ms apart
 * and each with one partner at most, are more. Accepted: how many pairs, lone hammers and lone sounds there are. Refused with 64 for more
 * than 4,096 times in a log; then with 63 for a time below the one before it; then with 65 where one of the three is too short. */
uint32_t drum_pair_logs(const uint32_t *hammers, size_t hammers_len, const uint32_t *sounds, size_t sounds_len, uint32_t *pairs,
                        size_t pairs_len, uint32_t *lone_hammers, size_t lone_hammers_len, uint32_t *lone_sounds, size_t lone_sounds_len,
                        uint64_t *answer, size_t answer_len);

#ifdef __cplusplus
}
#endif

#endif
