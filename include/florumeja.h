/*
 * Florumeja from C: parity weights that prove a planning task unsolvable.
 *
 * Build the archive and link it; it needs nothing but the C library, and runs on x86-64 Linux:
 *
 *     (cd crates/florumeja && rt lib)
 *     cc -std=c99 -I include program.c crates/florumeja/out/libflorumeja.a -o program
 *
 * or, once `./florumeja install PREFIX` has put it where pkg-config looks:
 *
 *     cc -std=c99 program.c $(pkg-config --cflags --libs florumeja) -o program
 *
 * Every call takes every input: there is no file, workspace or length that it must not be given. What the caller owes is memory:
 *
 *   - A slice is a pointer and then its length, in elements (bytes or 64-bit words). The pointer is valid for so many elements, aligned for
 *     them, and not NULL; where the length is 0 nothing is read or written through it.
 *   - A slice that is lent for writing (a room; the workspace of an edit) shares no byte with another slice of the call.
 *   - No other thread writes a slice of a call, or touches one that is lent for writing, before the call returns.
 *
 * Nothing is kept between calls and nothing is allocated. The most stack that a call can take, in bytes, whatever its input, as bench/stack reads it from
 * the compiled archive (measured, not proved; what memcpy and memset of the C library take comes on top):
 *
 *   line             84904      check, check_new                   23016      display, display_new             19184      find           8456
 *   display_partial  24896      check_partial, check_partial_new   22904      weights_to_new, weights_to_old   19184      build          5200
 *   open             23624      build_partial, build_partial_lean  20944      add_operator                    17288      replace_start  4376
 *   open_partial     23528      pair_fault                         19872      silence                         15632      replace_goal   4376
 *   check_line       23160      mend, dropped                      19288      to_new, to_old                  15104      display_bay     640
 *                                                                                                                     weight_file      64
 *
 * Each call answers one number, case * 2^32 + value; take it apart by florumeja_case and florumeja_value:
 *
 *   case                      value                             given by
 *   0 FLORUMEJA_DONE          0                                 the four checks: accepted; find: separated; an edit: done; pair_fault: good
 *                             words due                         open, open_partial
 *                             bytes written                     build, line, weight_file, check_line, build_partial, build_partial_lean, silence, mend, dropped,
 *                                                               to_new, to_old, weights_to_new, weights_to_old
 *   0 FLORUMEJA_IN_TASK       0                                 display, display_new, display_partial, display_bay: the part lies in the task, the partial file,
 *                                                               the bay file
 *   1 FLORUMEJA_IN_WEIGHTS    0                                 display, display_new, display_partial: the part lies in the weights
 *   1 FLORUMEJA_ENDS_ALIKE    0                                 the four checks: rejected, the parities of start and goal are equal
 *   1 FLORUMEJA_NONE          0                                 find: no weights separate; this is no refusal
 *   1 FLORUMEJA_HELD_PAIR     0                                 pair_fault: the start holds a listed pair
 *   2 FLORUMEJA_OPERATOR      the operator's number, from 0     the four checks: rejected, this operator is the first that breaks parity
 *   2 FLORUMEJA_UNCLOSED_PAIR 0                                 pair_fault: the pairs aren't closed under an operator
 *   3 FLORUMEJA_REFUSED       a refusal's number, see below     every call
 *
 * The four checks are check, check_new, check_partial and check_partial_new.
 *
 * A refused call leaves all lent memory as it came. Otherwise what is due goes to the front of the lent memory and the rest stays.
 * Which answer is given, and what is left in lent memory, is settled for every input by the contract of each function in
 * crates/florumeja/src/lib.rt.
 */
#ifndef FLORUMEJA_H
#define FLORUMEJA_H

#include <stddef.h>
#include <stdint.h>

#ifdef __cplusplus
extern "C" {
#endif

/* The cases of an answer. */
enum {
    FLORUMEJA_DONE = 0,
    FLORUMEJA_IN_TASK = 0,
    FLORUMEJA_IN_WEIGHTS = 1,
    FLORUMEJA_ENDS_ALIKE = 1,
    FLORUMEJA_NONE = 1,
    FLORUMEJA_HELD_PAIR = 1,
    FLORUMEJA_OPERATOR = 2,
    FLORUMEJA_UNCLOSED_PAIR = 2,
    FLORUMEJA_REFUSED = 3
};

/* The numbers of refusals. */
enum {
    FLORUMEJA_ENDS = 1,        /* input ends inside what is due */
    FLORUMEJA_LIMIT = 2,       /* v, a size, N, or a bay dimension breaks its limit (0 where an old task is due, too), or a built task has more operators
                                  than a number can count */
    FLORUMEJA_RANGE = 3,       /* a value, variable, entry count, feature, label or mark is outside its range, or new values or marks haven't length v; or a
                                  file doesn't begin with 0 where a new one is due */
    FLORUMEJA_UNORDERED = 4,   /* entries, pairs or weights don't increase; never in a list of gaps, whose features do whatever they are */
    FLORUMEJA_LEFT_OVER = 5,   /* bytes are left over */
    FLORUMEJA_HELD = 6,        /* the start holds a listed pair */
    FLORUMEJA_UNCLOSED = 7,    /* the pairs aren't closed under an operator */
    FLORUMEJA_SMALL = 8,       /* lent room is too small */
    FLORUMEJA_MALFORMED = 9,   /* a workspace isn't well formed */
    FLORUMEJA_GAPS = 10,       /* a bay's start, or then its goal, has no gap or more than one */
    FLORUMEJA_UNEQUAL = 11,    /* a bay's start and goal don't hold each label equally often */
    FLORUMEJA_PADDED = 12,     /* a number isn't in shortest form */
    FLORUMEJA_ENDLESS = 13     /* a number's third byte says that more follows */
};

/* The two kinds of files. An old task file has its listed pairs as they are. A new one begins with the number 0, which is no count of variables, and then
 * goes on as before, but its pairs are written as the first one and then each gap less one: 4, 5 and 9 as 4, 0 and 3. A new weight file begins with 0 too;
 * then come the count and the features, written in the same way. Counts and all other numbers stay. Each task has one file of each kind, and so has each list
 * of weights.
 *
 * Every call that reads a task file takes either kind, by its first number, but for florumeja_to_new and florumeja_to_old. A weight file doesn't say of which
 * kind it is: florumeja_check_new, florumeja_check_partial_new, florumeja_display_new and florumeja_weights_to_old read a new one, all others an old one.
 * Partial files, bay files and what florumeja_dropped writes have one kind, in which features are as they are. florumeja_mend writes the kind that came; what
 * is built is old. */

static inline uint32_t florumeja_case(uint64_t answer) { return (uint32_t)(answer >> 32); }

static inline uint32_t florumeja_value(uint64_t answer) { return (uint32_t)(answer & 0xffffffffu); }

/* Room that is never too small. A workspace of v variables and N features has 1 + 3v + W + N*W words and an answer has W, where W is N/64 rounded
 * up; v is at most 64 and N at most 32,768. A bay of four by four has 16 variables and 30,976 features, so its workspace has 14,992,917 words. The task
 * file of a bay has at most 9,845 bytes: four by four, all labels different. The longest line has the count and 640 features. A verdict's line is never
 * longer than a refusal's with a number of seven digits, a place of twenty and " in weights"; those that occur have at most 32 bytes, since no place at
 * fault has more than nine digits (argued, not proved: a task that is accepted has 194 bytes at most before its pairs, three for the count of these and for
 * each of less than 32,768, three for the count of operators and 193 for each of 2,097,151, all in all less than 404,850,000). The longest old weight file has
 * the count and 32,768 features, the first 128 of one byte each, the next 16,256 of two, the others and the count of three. */
#define FLORUMEJA_WORKSPACE_WORDS 16777921
#define FLORUMEJA_ANSWER_WORDS 512
#define FLORUMEJA_BAY_BYTES 9845
#define FLORUMEJA_LINE_BYTES 2464
#define FLORUMEJA_VERDICT_BYTES 51
#define FLORUMEJA_WEIGHT_BYTES 81795

/* So many bytes more than a file has are never too few for the file of the other kind, be it a task or weights. A gap less one never takes more bytes than
 * the feature behind it, so a new file has only its 0 more. An old one has two bytes more at most for each of 16,384 features from 16,384 on, and one for
 * each of 16,256 from 128 on, and not that 0. The longest new weight file has its 0, the count and 32,768 gaps of one byte. */
#define FLORUMEJA_NEW_MORE 1
#define FLORUMEJA_OLD_MORE 49023
#define FLORUMEJA_NEW_WEIGHT_BYTES 32772

/* So many bytes more than the file that they are made from are never too few for a built task and for a partial file. A built task has at most 281 operators
 * of four bytes that its partial file has not: sizes 63, 63, 63, 63 and 29. A pair's new number is at most four times the old one, so it takes one byte more
 * at most, and only where the old one is 32 to 127 or 4,096 to 16,383: 96 and 12,288 pairs. The count of the operators takes one byte more at most, and a
 * goal value takes the place of each silent variable's mark. A partial file has a mark more for each variable; where it is made from a new task file,
 * FLORUMEJA_OLD_MORE comes on top. */
#define FLORUMEJA_BUILT_MORE 13509
#define FLORUMEJA_SILENCED_MORE 64

/* Room for a pair and for an operator's number. */
#define FLORUMEJA_FAULT_WORDS 2

/* Room for where a part begins and for how many bytes it has. */
#define FLORUMEJA_PLACE_WORDS 2

/* Checks weights against a task: a task file of either kind and an old weight file; and a new weight file. */
uint64_t florumeja_check(const uint8_t *task, size_t task_length, const uint8_t *weights, size_t weights_length);
uint64_t florumeja_check_new(const uint8_t *task, size_t task_length, const uint8_t *weights, size_t weights_length);

/* Opens a workspace from a task file of either kind. */
uint64_t florumeja_open(const uint8_t *task, size_t task_length, uint64_t *room, size_t room_length);

/* Finds the least weights that separate a workspace's start from its goal. Feature i is bit i % 64 of word i / 64 of the room. */
uint64_t florumeja_find(const uint64_t *workspace, size_t workspace_length, uint64_t *room, size_t room_length);

/* Adds an operator with so many entries: variables strictly increasing, each with its value before and after. Places past a list's end
 * count as 0, and places from the count on are ignored. */
uint64_t florumeja_add_operator(uint64_t *workspace, size_t workspace_length, uint64_t count,
                                const uint64_t *variables, size_t variables_length,
                                const uint64_t *befores, size_t befores_length,
                                const uint64_t *afters, size_t afters_length);

/* Puts other values in the place of the start's, or of the goal's: one for each variable. */
uint64_t florumeja_replace_start(uint64_t *workspace, size_t workspace_length, const uint64_t *values, size_t values_length);
uint64_t florumeja_replace_goal(uint64_t *workspace, size_t workspace_length, const uint64_t *values, size_t values_length);

/* Builds the task file of a bay file: rows, columns, the start's labels and the goal's, slots row by row, 0 for the gap. Pallets with one label are alike. */
uint64_t florumeja_build(const uint8_t *bay, size_t bay_length, uint8_t *room, size_t room_length);

/* The line that the finder's program prints for an input, a task file of either kind, its line end included: "separated", the count and the features; "none";
 * "refused N"; or, where the refusal has a place, "refused N at P". The program's own refusals are lines too: case 3 is given only where the room is too
 * small for the line. */
uint64_t florumeja_line(const uint8_t *input, size_t input_length, uint8_t *room, size_t room_length);

/* Writes the old weight file of a set of features in words: feature i is bit i % 64 of word i / 64, as florumeja_find leaves its answer. Hand it the first W
 * words of that answer; what stands in further words counts too. A feature of 32,768 or more is refused 3, whatever the room; otherwise a room that is
 * shorter than the file is refused 8. */
uint64_t florumeja_weight_file(const uint64_t *words, size_t words_length, uint8_t *room, size_t room_length);

/* The line that tells what florumeja_check answers for the same files, its line end included: "accepted", "rejected ends alike", "rejected operator J" or
 * "refused N"; where the refusal has a place, "refused N at P in task" or "refused N at P in weights". Refusals are lines too: case 3 is given only where the
 * room is too small for the line. */
uint64_t florumeja_check_line(const uint8_t *task, size_t task_length, const uint8_t *weights, size_t weights_length, uint8_t *room, size_t room_length);

/* Partial files: orders that name some variables. A partial file is an old task file with a mark for each variable after the sizes, 0 for silent and 1 for
 * named, and goal values for the named ones only; its sizes are 1 to 63, and values and pairs count by them. It stands for a built task: each variable
 * has one value more, "unknown", which is the goal's where the order is silent, and operators that forget, from a value to "unknown", follow the
 * file's own. The built goal is reached exactly when the file's operators reach a state that has what the order names. Limits, 6 and 7 are judged
 * on the built task; a 7 may come of an operator that was idle for want of a possible value, since "unknown" is always possible.
 *
 * By the letter a silent variable's value is never forgotten that is listed as exclusive with a named goal value, and nothing else is left out. Then
 * start and goal mostly both lead to "all unknown", and no weights separate them. The lean built task also leaves out what forgets a named variable.
 * Neither loses a plan. */

/* Opens a workspace from a partial file: that of its built task, by the letter. */
uint64_t florumeja_open_partial(const uint8_t *partial, size_t partial_length, uint64_t *room, size_t room_length);

/* Checks weights, an old weight file, against a partial file's built task, by the letter; features and operators count there. Accepted means that no
 * sequence of the file's operators meets the order. The other call takes a new weight file. */
uint64_t florumeja_check_partial(const uint8_t *partial, size_t partial_length, const uint8_t *weights, size_t weights_length);
uint64_t florumeja_check_partial_new(const uint8_t *partial, size_t partial_length, const uint8_t *weights, size_t weights_length);

/* Writes a partial file's built task as a task file, by the letter; and the lean one. */
uint64_t florumeja_build_partial(const uint8_t *partial, size_t partial_length, uint8_t *room, size_t room_length);
uint64_t florumeja_build_partial_lean(const uint8_t *partial, size_t partial_length, uint8_t *room, size_t room_length);

/* Writes the partial file of a task file of either kind and a mark for each variable, one byte each: the task with only the goal values whose mark is 1. The
 * task is judged wholly, then the marks (3: not as many as variables, or above 1), then the partial file's limits (2), then the room. */
uint64_t florumeja_silence(const uint8_t *task, size_t task_length, const uint8_t *marks, size_t marks_length, uint8_t *room, size_t room_length);

/* Smaller files, and the way back. Both kinds name the same task or the same weights, and a file that is converted and converted back is the same byte for
 * byte. */

/* Writes an old task file as a new one, and a new one as an old one. The file has to be of the one kind: 0 as the first number of an old one is refused 2,
 * and another number than 0 as that of a new one is refused 3. All of a task is judged, 6 and 7 too, and then the room. */
uint64_t florumeja_to_new(const uint8_t *task, size_t task_length, uint8_t *room, size_t room_length);
uint64_t florumeja_to_old(const uint8_t *task, size_t task_length, uint8_t *room, size_t room_length);

/* Writes an old weight file as a new one, and a new one as an old one, beside their task, which is of either kind. The task is judged wholly, then the
 * weights, then the room. */
uint64_t florumeja_weights_to_new(const uint8_t *task, size_t task_length, const uint8_t *weights, size_t weights_length, uint8_t *room, size_t room_length);
uint64_t florumeja_weights_to_old(const uint8_t *task, size_t task_length, const uint8_t *weights, size_t weights_length, uint8_t *room, size_t room_length);

/* Pair lists made by hand. A list is good if the start holds none of its pairs and it is closed under every operator; other calls refuse a task with
 * another list by 6 or 7. These three take every list, in a task file of either kind: they judge all that comes before 6 and then 8, and give neither 6 nor 7.
 * Any list has a largest good part, which holds every other good part of it. */

/* Writes a task file with only the largest good part of its pair list; all else is as it came, its kind too. A good list comes back byte for byte, and a
 * mended file is never longer than the task, so a room of the task's length is never too small. */
uint64_t florumeja_mend(const uint8_t *task, size_t task_length, uint8_t *room, size_t room_length);

/* Writes which pairs florumeja_mend drops: their count and their features, increasing, as an old weight file has them. They are some of the task's, so
 * for an old task file a room of its length is never too small, and FLORUMEJA_WEIGHT_BYTES are always enough, whatever the kind. */
uint64_t florumeja_dropped(const uint8_t *task, size_t task_length, uint8_t *room, size_t room_length);

/* Says why a task's pair list isn't good. FLORUMEJA_HELD_PAIR: the first word is the least listed pair that the start holds. FLORUMEJA_UNCLOSED_PAIR: the
 * second word is the number, from 0, of the first operator under which the list isn't closed, and the first word is the least listed pair that is
 * unclosed under it. FLORUMEJA_DONE: the list is good. Words that aren't named here stay. Less than two words are refused 8, whatever the list is. No
 * good part of the list has the pair that is named. */
uint64_t florumeja_pair_fault(const uint8_t *task, size_t task_length, uint64_t *room, size_t room_length);

/* Pointing at the bad bytes. The refusals 1 to 4, 12 and 13 of a file have a place: the first byte of the number that was being read, counted from 0 in the
 * file that holds it. A limit over several numbers stands at the last one: N at the last size, rows times columns at the columns. 4 stands at the number
 * that doesn't increase. The others have no place, and a 2 that is judged after 5 has none: more operators of a built task than a number can count, and the
 * limits that florumeja_silence judges. Marks, and what an edit is handed, are no file.
 *
 * What is shown is that number's bytes as far as they were read. 2, 3, 4: all of them. 12: two or three, and the last is 0. 13: the three that are
 * allowed. 1: those from the place to the end of the file; none, at the end, where the file ends before the number begins. Without a place, and where
 * nothing is refused, the part is empty at the task's start.
 *
 * The case says which file holds the part; the first word is where it begins there, and the second how many bytes it has. Words behind these stay. Less than
 * two words are refused 8, whatever the files are; nothing else is refused. The number of the refusal itself is what the other calls answer. */

/* Where the bytes at fault of a task file of either kind and a weight file lie: of what florumeja_check refuses, and of a task that another call refuses. For
 * a task alone hand the weight file that lists nothing, one byte 0, which is never at fault. The other call takes a new weight file: of what
 * florumeja_check_new refuses. A first number that florumeja_to_new or florumeja_to_old refuses for its kind stands at 0, and no call shows it. */
uint64_t florumeja_display(const uint8_t *task, size_t task_length, const uint8_t *weights, size_t weights_length, uint64_t *room, size_t room_length);
uint64_t florumeja_display_new(const uint8_t *task, size_t task_length, const uint8_t *weights, size_t weights_length, uint64_t *room, size_t room_length);

/* Where the bytes at fault of a partial file and an old weight file for its built task, by the letter, lie. What florumeja_build_partial_lean refuses in the
 * file has the same place. For a new weight file hand florumeja_display_new the built task, by the letter, which has the same features. */
uint64_t florumeja_display_partial(const uint8_t *partial, size_t partial_length, const uint8_t *weights, size_t weights_length, uint64_t *room,
                                   size_t room_length);

/* Where the bytes at fault of a bay file lie: never FLORUMEJA_IN_WEIGHTS. */
uint64_t florumeja_display_bay(const uint8_t *bay, size_t bay_length, uint64_t *room, size_t room_length);

#ifdef __cplusplus
}
#endif

#endif
