/* Each call of include/florumeja.h on document 01's cases. Every expected answer and word is from document 01, or worked out beside it. */
#include "florumeja.h"

#include <stdio.h>
#include <stdlib.h>
#include <string.h>

static int passed, failed;

static void expect_of(int holds, const char *what, const char *more) {
    if (holds) {
        passed++;
    } else {
        failed++;
        printf("differs: %s%s\n", what, more);
    }
}

static void expect(int holds, const char *what) { expect_of(holds, what, ""); }

static int is(uint64_t answer, uint32_t answer_case, uint32_t value) {
    return florumeja_case(answer) == answer_case && florumeja_value(answer) == value;
}

static int refused(uint64_t answer, uint32_t number) { return is(answer, FLORUMEJA_REFUSED, number); }

/* Whether words or bytes are the same. */
#define SAME(a, b) (memcmp((a), (b), sizeof(b)) == 0)
#define COUNT(a) (sizeof(a) / sizeof((a)[0]))

/* As many operators as a file can count: three groups of seven bits. */
#define MOST_COUNTED 2097151

/* Puts a number as files have it, seven bits to a byte and the low ones first, and answers the place behind it. */
static uint8_t *put(uint8_t *at, size_t number) {
    for (; number >= 128; number /= 128) *at++ = (uint8_t)(number % 128 + 128);
    *at++ = (uint8_t)number;
    return at;
}

/* Tasks of document 01: A, B, D, G, H, I, L. */
static const uint8_t task_a[] = {2, 2, 2, 0, 0, 0, 1, 0, 0};
static const uint8_t task_b[] = {2, 2, 2, 0, 0, 0, 1, 0, 4, 2, 0, 0, 1, 1, 0, 1, 2, 0, 0, 1, 1, 1, 0, 2, 0, 1, 0, 1, 1, 0, 2, 0, 1, 0, 1, 0, 1};
static const uint8_t task_d[] = {2, 2, 2, 0, 0, 1, 0, 0, 1, 1, 0, 0, 1};
static const uint8_t task_g[] = {2, 2, 2, 0, 0, 1, 0, 1, 7, 1, 1, 0, 0, 1};
static const uint8_t task_h[] = {2, 2, 2, 1, 1, 0, 0, 1, 7, 0};
static const uint8_t task_i[] = {2, 2, 2, 0, 0, 1, 1, 1, 7, 1, 2, 0, 0, 1, 1, 0, 0};
static const uint8_t task_l[] = {2, 2, 2, 1, 0, 0, 0, 2, 4, 5, 1, 1, 0, 0, 1};

/* Workspaces: B's with two words of room behind it that stay, then A's, C's, D's, E's start with D's goal, E's, L's, and L's with another goal. Lift changes 00 to 10 and 01 to
 * 11, so {0,1,4,6} and {0,1,5,7} are forced, and their sum {4,5,6,7}: slot 0 holds {0,1,5,7}, which is 163, and slot 4 {4,5,6,7}, which is 240. L's pairs 4 and 5 are 48. */
static const uint64_t words_b[] = {2, 2, 2, 0, 0, 0, 1, 0, 111, 0, 0, 0, 240, 0, 0, 0, 7, 7};
static const uint64_t words_a[] = {2, 2, 2, 0, 0, 0, 1, 0, 0, 0, 0, 0, 0, 0, 0, 0};
static const uint64_t words_c[] = {2, 2, 2, 0, 0, 0, 1, 0, 163, 0, 0, 0, 240, 0, 0, 0};
static const uint64_t words_d[] = {2, 2, 2, 0, 0, 1, 0, 0, 163, 0, 0, 0, 240, 0, 0, 0};
static const uint64_t words_d_to_e[] = {2, 2, 2, 1, 0, 1, 0, 0, 163, 0, 0, 0, 240, 0, 0, 0};
static const uint64_t words_e[] = {2, 2, 2, 1, 0, 0, 0, 0, 163, 0, 0, 0, 240, 0, 0, 0};
static const uint64_t words_l[] = {2, 2, 2, 1, 0, 0, 0, 48, 0, 0, 0, 0, 0, 0, 0, 0};
static const uint64_t other_l[] = {2, 2, 2, 1, 0, 0, 1, 48, 0, 0, 0, 0, 0, 0, 0, 0};

/* What a search leaves in two words of room, of which the second is never due: nothing, or {0}, {2} and {0,2}. */
static const uint64_t not_found[] = {9, 9}, found_0[] = {1, 9}, found_2[] = {4, 9}, found_0_2[] = {5, 9};

static void check_calls(void) {
    const uint8_t both[] = {2, 0, 2}, first[] = {1, 0}, third[] = {1, 2}, past[] = {1, 8};
    expect(is(florumeja_check(task_b, sizeof task_b, both, sizeof both), FLORUMEJA_DONE, 0), "B with {0,2} is accepted");
    expect(is(florumeja_check(task_b, sizeof task_b, first, sizeof first), FLORUMEJA_ENDS_ALIKE, 0), "J: ends alike");
    expect(is(florumeja_check(task_b, sizeof task_b, third, sizeof third), FLORUMEJA_OPERATOR, 0), "K: operator 0");
    expect(refused(florumeja_check(task_g, sizeof task_g, first, sizeof first), FLORUMEJA_UNCLOSED), "G: refused 7");
    expect(refused(florumeja_check(task_h, sizeof task_h, first, sizeof first), FLORUMEJA_HELD), "H: refused 6");
    expect(refused(florumeja_check(task_b, sizeof task_b, past, sizeof past), FLORUMEJA_RANGE), "feature 8 of 8: refused 3");
    expect(refused(florumeja_check(task_b, 0, both, sizeof both), FLORUMEJA_ENDS), "an empty task: refused 1");
}

static void open_and_find(void) {
    uint64_t room[18], answer[] = {9, 9}, short_room[] = {3, 3};
    const uint64_t sevens[] = {7, 7, 7, 7, 7, 7, 7, 7, 7, 7, 7, 7, 7, 7, 7, 7, 7, 7}, threes[] = {3, 3};
    memcpy(room, sevens, sizeof room);
    expect(refused(florumeja_open(task_b, sizeof task_b, room, 15), FLORUMEJA_SMALL) && SAME(room, sevens), "15 words are too few for B");
    expect(refused(florumeja_find(room, 15, answer, 2), FLORUMEJA_MALFORMED) && SAME(answer, not_found), "words that were never a workspace: refused 9");
    expect(is(florumeja_open(task_b, sizeof task_b, room, COUNT(room)), FLORUMEJA_DONE, 16) && SAME(room, words_b), "B's workspace");
    expect(refused(florumeja_find(room, COUNT(room), answer, 0), FLORUMEJA_SMALL) && SAME(answer, not_found), "no room for an answer");
    expect(is(florumeja_find(room, COUNT(room), answer, 2), FLORUMEJA_DONE, 0) && SAME(answer, found_0_2), "B: {0,2}");
    expect(refused(florumeja_find(room, 15, answer, 2), FLORUMEJA_MALFORMED) && SAME(answer, found_0_2), "a workspace a word short: refused 9");
    expect(is(florumeja_open(task_d, sizeof task_d, room, COUNT(room)), FLORUMEJA_DONE, 16), "D is opened");
    expect(is(florumeja_find(room, COUNT(room), answer, 2), FLORUMEJA_NONE, 0) && SAME(answer, found_0_2), "D: none, and the room stays");
    expect(refused(florumeja_open(task_g, sizeof task_g, short_room, 2), FLORUMEJA_UNCLOSED) && SAME(short_room, threes), "G is not opened: refused 7 before 8");
    expect(refused(florumeja_open(task_h, sizeof task_h, short_room, 2), FLORUMEJA_HELD) && SAME(short_room, threes), "H is not opened: refused 6 before 8");
}

/* What a search of 16 words answers, in room that held nothing. */
static uint64_t find_afresh(const uint64_t *words, uint64_t *answer) {
    memcpy(answer, not_found, sizeof not_found);
    return florumeja_find(words, 16, answer, 2);
}

/* Adds lift, (0: 0 to 1), with so many of 64 entries counted, which are all the same. */
static uint64_t add_lift(uint64_t *words, uint64_t count) {
    static const uint64_t zeros[64] = {0};
    uint64_t ones[64];
    size_t i;
    for (i = 0; i < 64; i++) ones[i] = 1;
    return florumeja_add_operator(words, 16, count, zeros, 64, zeros, 64, ones, 64);
}

/* A with lift is C, then D with another goal, and E with a start of its own too. An edit that is refused changes no word, nor does lift once more. */
static void edits(void) {
    uint64_t room[16] = {0}, answer[2];
    const uint64_t nothing[1] = {0}, one[] = {1}, ends[] = {1, 0}, origin[] = {0, 0}, two[] = {0, 2}, falls[] = {1, 0, 0};
    expect(is(florumeja_open(task_a, sizeof task_a, room, 16), FLORUMEJA_DONE, 16) && SAME(room, words_a), "A's workspace");
    expect(is(find_afresh(room, answer), FLORUMEJA_DONE, 0) && SAME(answer, found_2), "A: {2}");
    expect(is(add_lift(room, 1), FLORUMEJA_DONE, 0) && SAME(room, words_c), "A with lift has C's words");
    expect(is(find_afresh(room, answer), FLORUMEJA_DONE, 0) && SAME(answer, found_2), "C: {2}");
    expect(refused(add_lift(room, 0), FLORUMEJA_RANGE) && SAME(room, words_c), "no entry of 64: refused 3");
    expect(refused(add_lift(room, 2), FLORUMEJA_UNORDERED) && SAME(room, words_c), "a variable twice: refused 4");
    expect(refused(florumeja_add_operator(room, 16, 0, nothing, 1, nothing, 1, one, 1), FLORUMEJA_RANGE), "no entry: refused 3");
    expect(refused(florumeja_add_operator(room, 16, 3, nothing, 1, nothing, 1, one, 1), FLORUMEJA_RANGE), "three entries of two: refused 3");
    expect(refused(florumeja_add_operator(room, 16, UINT64_MAX, nothing, 1, nothing, 1, one, 1), FLORUMEJA_RANGE), "the largest count: refused 3");
    expect(refused(florumeja_add_operator(room, 16, 2, falls, 3, nothing, 1, one, 1), FLORUMEJA_UNORDERED), "entries that fall: refused 4");
    expect(refused(florumeja_replace_goal(room, 16, ends, 1), FLORUMEJA_RANGE) && SAME(room, words_c), "one value of two: refused 3");
    expect(refused(florumeja_replace_start(room, 16, two, 2), FLORUMEJA_RANGE) && SAME(room, words_c), "a value that equals its size: refused 3");
    expect(is(add_lift(room, 1), FLORUMEJA_DONE, 0) && SAME(room, words_c), "lift once more");
    expect(is(florumeja_replace_goal(room, 16, ends, 2), FLORUMEJA_DONE, 0) && SAME(room, words_d), "D's words");
    expect(is(find_afresh(room, answer), FLORUMEJA_NONE, 0) && SAME(answer, not_found), "D: none");
    expect(is(florumeja_replace_start(room, 16, ends, 2), FLORUMEJA_DONE, 0) && SAME(room, words_d_to_e), "E's start");
    expect(is(florumeja_replace_goal(room, 16, origin, 2), FLORUMEJA_DONE, 0) && SAME(room, words_e), "E's words");
    expect(is(find_afresh(room, answer), FLORUMEJA_NONE, 0) && SAME(answer, not_found), "E: none");
    expect(refused(florumeja_replace_goal(room, 0, ends, 2), FLORUMEJA_MALFORMED) && SAME(room, words_e), "no words at all: refused 9");
    expect(is(florumeja_open(task_a, sizeof task_a, room, 16), FLORUMEJA_DONE, 16) && SAME(room, words_a), "A's workspace over E's");
    expect(is(florumeja_add_operator(room, 16, 1, nothing, 0, nothing, 0, one, 1), FLORUMEJA_DONE, 0) && SAME(room, words_c), "lift, places past the end are 0");
}

/* C is opened with lift. L's lift is idle, and its start would hold a listed pair, as its goal may; with no variable it is no workspace. */
static void edits_beside_pairs(void) {
    static const uint8_t task_c[] = {2, 2, 2, 0, 0, 0, 1, 0, 1, 1, 0, 0, 1};
    uint64_t room[16] = {0}, answer[2], broken[16];
    const uint64_t origin[] = {0, 0}, listed[] = {0, 1};
    expect(is(florumeja_open(task_c, sizeof task_c, room, 16), FLORUMEJA_DONE, 16) && SAME(room, words_c), "C's workspace");
    expect(is(find_afresh(room, answer), FLORUMEJA_DONE, 0) && SAME(answer, found_2), "C opened: {2}");
    memset(room, 0, sizeof room);
    expect(is(florumeja_open(task_l, sizeof task_l, room, 16), FLORUMEJA_DONE, 16) && SAME(room, words_l), "L's workspace");
    expect(is(find_afresh(room, answer), FLORUMEJA_DONE, 0) && SAME(answer, found_0), "L: {0}");
    expect(refused(florumeja_replace_start(room, 16, origin, 2), FLORUMEJA_HELD) && SAME(room, words_l), "a start that holds a pair: refused 6");
    expect(is(florumeja_replace_goal(room, 16, listed, 2), FLORUMEJA_DONE, 0) && SAME(room, other_l), "a goal that holds a pair");
    memcpy(broken, other_l, sizeof broken);
    room[0] = broken[0] = 0;
    expect(refused(find_afresh(room, answer), FLORUMEJA_MALFORMED) && SAME(answer, not_found), "no variable: refused 9");
    expect(refused(florumeja_replace_goal(room, 16, listed, 2), FLORUMEJA_MALFORMED) && SAME(room, broken), "no variable for a goal: refused 9");
}

/* A bay of labels that all differ, its goal with the last two exchanged; answers the bytes of its file. */
static size_t bay_of(uint8_t *bay, int rows, int columns) {
    int i, n = rows * columns;
    bay[0] = (uint8_t)rows;
    bay[1] = (uint8_t)columns;
    for (i = 0; i < n; i++) bay[2 + i] = bay[2 + n + i] = (uint8_t)i;
    bay[2 * n] = (uint8_t)(n - 1);
    bay[2 * n + 1] = (uint8_t)(n - 2);
    return (size_t)(2 + 2 * n);
}

/* n variables of size n: 1 + n bytes, and n each for start and goal. A pair for each label t and each two slots, the k-th of which it is (1 + k) * n * n + t * (n + 1). An
 * operator of 7 bytes for each label but the gap's and each side that two slots share, either way.
 * 3 by 3: 10 + 18; 324 pairs, of which 5 are below 128: 2 + 5 + 2 * 319; 12 sides, 192 operators: 2 + 7 * 192. In all 2,019.
 * 2 by 5: 11 + 20; 450 pairs, of which 3 are below 128: 2 + 3 + 2 * 447; 13 sides, 234 operators: 2 + 7 * 234. In all 2,570.
 * 4 by 4: 17 + 32; 1,920 pairs, those of the first 63 of 120 two slots below 16,384: 2 + 2 * 1,008 + 3 * 912; 24 sides, 720 operators: 2 + 7 * 720. In all 9,845.
 * 2 by 8, and 8 by 2: 22 sides, so 60 operators less: 9,425. */
static void bay_sizes(void) {
    static const struct { int rows, columns; uint32_t bytes; } taken[] = {{3, 3, 2019}, {2, 5, 2570}, {4, 4, FLORUMEJA_BAY_BYTES}, {2, 8, 9425}, {8, 2, 9425}};
    static const uint8_t sides[][2] = {{2, 9}, {9, 2}, {3, 6}, {4, 5}, {9, 9}, {1, 10}, {10, 1}, {1, 16}, {16, 1}, {1, 1}};
    static uint8_t room[FLORUMEJA_BAY_BYTES + 1];
    uint8_t bay[2 + 2 * 16];
    char name[40];
    size_t i, length;
    for (i = 0; i < COUNT(taken); i++) {
        sprintf(name, "%d by %d", taken[i].rows, taken[i].columns);
        length = bay_of(bay, taken[i].rows, taken[i].columns);
        memset(room, 7, sizeof room);
        expect_of(refused(florumeja_build(bay, length, room, taken[i].bytes - 1), FLORUMEJA_SMALL) && room[0] == 7, "a byte too few for the bay ", name);
        expect_of(is(florumeja_build(bay, length, room, sizeof room), FLORUMEJA_DONE, taken[i].bytes) && room[taken[i].bytes - 1] != 7 && room[taken[i].bytes] == 7, "the bay ", name);
    }
    for (i = 0; i < COUNT(sides); i++) {
        sprintf(name, "%d by %d", sides[i][0], sides[i][1]);
        expect_of(refused(florumeja_build(sides[i], 2, room, sizeof room), FLORUMEJA_LIMIT), "refused 2: the bay ", name);
    }
}

/* In the row 1 1 0 only the gap occurs once: its pairs are 9, 18 and 27, and the lot slides between each two neighbours, either way. */
static void builds_and_lines(void) {
    static const uint8_t bay[] = {1, 2, 0, 1, 1, 0}, gaps[] = {1, 2, 0, 0, 1, 0}, full[] = {1, 2, 0, 1, 1, 1}, unequal[] = {1, 3, 0, 1, 1, 0, 1, 2}, high[] = {10, 1};
    static const uint8_t alike[] = {1, 3, 1, 1, 0, 0, 1, 1};
    static const uint8_t lot[] = {3, 3, 3, 3, 1, 1, 0, 0, 1, 1, 3, 9, 18, 27, 4, 2, 0, 0, 1, 1, 1, 0, 2, 0, 1, 0, 1, 0, 1, 2, 1, 0, 1, 2, 1, 0, 2, 1, 1, 0, 2, 0, 1, 7};
    static const uint8_t task[] = {2, 2, 2, 0, 1, 1, 0, 2, 4, 7, 2, 2, 0, 0, 1, 1, 1, 0, 2, 0, 1, 0, 1, 0, 1, 7};
    uint8_t room[FLORUMEJA_LINE_BYTES];
    memset(room, 7, sizeof room);
    expect(refused(florumeja_build(bay, sizeof bay, room, 24), FLORUMEJA_SMALL) && room[0] == 7, "24 bytes are too few for the bay 1 by 2");
    expect(is(florumeja_build(bay, sizeof bay, room, sizeof room), FLORUMEJA_DONE, 25) && SAME(room, task), "the bay 1 by 2");
    expect(refused(florumeja_build(gaps, sizeof gaps, room, sizeof room), FLORUMEJA_GAPS), "two gaps: refused 10");
    expect(refused(florumeja_build(full, sizeof full, room, sizeof room), FLORUMEJA_GAPS), "no gap in the goal, and unequal lots: refused 10");
    expect(refused(florumeja_build(unequal, sizeof unequal, room, 0), FLORUMEJA_UNEQUAL), "unequal lots and no room: refused 11");
    memset(room, 7, sizeof room);
    expect(is(florumeja_build(alike, sizeof alike, room, sizeof room), FLORUMEJA_DONE, 43) && SAME(room, lot), "a row with a lot of two");
    expect(refused(florumeja_build(high, sizeof high, room, sizeof room), FLORUMEJA_LIMIT), "ten rows: refused 2");
    memset(room, 7, sizeof room);
    expect(refused(florumeja_line(task_b, sizeof task_b, room, 15), FLORUMEJA_SMALL) && room[0] == 7, "15 bytes are too few for B's line");
    expect(is(florumeja_line(task_b, sizeof task_b, room, sizeof room), FLORUMEJA_DONE, 16) && memcmp(room, "separated 2 0 2\n\7", 17) == 0, "B's line");
    expect(is(florumeja_line(task_g, sizeof task_g, room, sizeof room), FLORUMEJA_DONE, 10) && memcmp(room, "refused 7\n", 10) == 0, "G's line");
    memset(room, 7, sizeof room);
    expect(refused(florumeja_line(task_b, 0, room, 14), FLORUMEJA_SMALL) && room[0] == 7, "14 bytes are too few for `refused 1 at 0`");
    expect(is(florumeja_line(task_b, 0, room, 15), FLORUMEJA_DONE, 15) && memcmp(room, "refused 1 at 0\n\7", 16) == 0, "the line of no bytes");
    expect(is(florumeja_line(task_b, 36, room, sizeof room), FLORUMEJA_DONE, 16) && memcmp(room, "refused 1 at 36\n\7", 17) == 0, "B's line without its last byte");
}

/* The count and the features as a weight file has them; a number from 128 on has two bytes, one from 16,384 on three: 128 is 80 01, 200 is C8 01, 16,384 is 80 80 01. The
 * longest file: a count of three bytes, 128 features of one byte, 16,256 of two and 16,384 of three. */
static void weight_files(void) {
    static uint64_t full[513], edges[512];
    static uint8_t long_room[FLORUMEJA_WEIGHT_BYTES];
    uint8_t room[16];
    const uint8_t sevens[] = {7, 7, 7, 7, 7, 7, 7, 7}, both[] = {2, 0, 2, 7}, wide[] = {5, 0x7f, 0x80, 1, 0xff, 0x7f, 0x80, 0x80, 1, 0xff, 0xff, 1, 7}, high[] = {3, 63, 0x80, 1, 0xC8, 1, 7}, none[] = {0, 7};
    const uint64_t found[] = {5}, apart[] = {1ull << 63, 0, 1, 1ull << 8}, empty[] = {0, 0};
    memset(room, 7, sizeof room);
    expect(refused(florumeja_weight_file(found, 1, room, 2), FLORUMEJA_SMALL) && SAME(room, sevens), "2 bytes are too few for {0,2}");
    expect(is(florumeja_weight_file(found, 1, room, sizeof room), FLORUMEJA_DONE, 3) && SAME(room, both), "the weight file of {0,2}");
    expect(is(florumeja_check(task_b, sizeof task_b, room, 3), FLORUMEJA_DONE, 0), "B with that file is accepted");
    memset(room, 7, sizeof room);
    expect(is(florumeja_weight_file(apart, 4, room, sizeof room), FLORUMEJA_DONE, 6) && SAME(room, high), "the weight file of {63,128,200}");
    memset(room, 7, sizeof room);
    expect(is(florumeja_weight_file(empty, 2, room, sizeof room), FLORUMEJA_DONE, 1) && SAME(room, none), "the weight file of no feature");
    expect(is(florumeja_weight_file(empty, 0, room, 1), FLORUMEJA_DONE, 1), "no words at all");
    edges[1] = edges[255] = edges[511] = 1ull << 63;
    edges[2] = edges[256] = 1;
    memset(room, 7, sizeof room);
    expect(refused(florumeja_weight_file(edges, 512, room, 11), FLORUMEJA_SMALL) && SAME(room, sevens), "11 bytes are too few for numbers of one to three bytes");
    expect(is(florumeja_weight_file(edges, 512, room, 12), FLORUMEJA_DONE, 12) && SAME(room, wide), "the weight file of {127,128,16383,16384,32767}");
    memset(full, 255, 512 * sizeof full[0]);
    expect(refused(florumeja_weight_file(full, 513, long_room, FLORUMEJA_WEIGHT_BYTES - 1), FLORUMEJA_SMALL), "a byte too few for 32,768 features");
    expect(is(florumeja_weight_file(full, 513, long_room, FLORUMEJA_WEIGHT_BYTES), FLORUMEJA_DONE, FLORUMEJA_WEIGHT_BYTES), "32,768 features and a word of none");
    expect(memcmp(long_room, "\x80\x80\x02\x00\x01", 5) == 0 && memcmp(long_room + FLORUMEJA_WEIGHT_BYTES - 3, "\xff\xff\x01", 3) == 0, "the count in front and the last feature behind");
    full[512] = 1;
    memset(room, 7, sizeof room);
    expect(refused(florumeja_weight_file(full, 513, room, 0), FLORUMEJA_RANGE) && SAME(room, sevens), "feature 32,768: refused 3 before the room is judged");
}

/* Sizes 54, 57, 57, 58 and 59 have 285 atoms and 32,768 features. The last one is 57 of variable 3 with 58 of variable 4. The pairs of variables 1 and 3 begin at 285 +
 * 2 * 54 * 57 + 54 * 58 + 54 * 59 + 57 * 57 = 16,008, so 16,384 is 6 of variable 1 with 28 of variable 3, and 16,383 is 6 with 27. */
#define FULL_SIZES 5, 54, 57, 57, 58, 59

static void most_features(void) {
    static const uint8_t corner[] = {FULL_SIZES, 0, 0, 0, 0, 0, 0, 0, 0, 57, 58, 0, 0}, middle[] = {FULL_SIZES, 0, 0, 0, 0, 0, 0, 6, 0, 28, 0, 0, 0};
    static const uint8_t held[] = {FULL_SIZES, 0, 0, 0, 57, 58, 0, 0, 0, 0, 0, 1, 0xff, 0xff, 1, 0}, freed_of_it[] = {FULL_SIZES, 0, 0, 0, 57, 58, 0, 0, 0, 0, 0, 0, 0, 7};
    static const uint8_t made[] = {FULL_SIZES, 0, 0, 0, 0, 0, 0, 0, 0, 0, 0, 2, 0x80, 0x80, 1, 0xff, 0xff, 1, 1, 2, 3, 0, 57, 4, 0, 58};
    const uint8_t last[] = {1, 0xff, 0xff, 1}, past[] = {1, 0x80, 0x80, 2}, low[] = {1, 0xff, 0x7f}, high[] = {1, 0x80, 0x80, 1}, dropped[] = {1, 0xff, 0xff, 1, 7};
    const uint8_t marks[] = {0, 1, 1, 1, 1};
    const uint64_t of_held[] = {32767, 9}, of_made[] = {32767, 0};
    const size_t due = 1 + 3 * 5 + 512 * (1 + 32768);
    uint64_t *words = (uint64_t *)malloc(due * sizeof *words), answer[513], pair[] = {9, 9};
    uint8_t room[64];
    size_t i, others = 0;
    expect(is(florumeja_check(corner, sizeof corner, last, sizeof last), FLORUMEJA_DONE, 0), "feature 32,767 of 32,768 is accepted");
    expect(refused(florumeja_check(corner, sizeof corner, past, sizeof past), FLORUMEJA_RANGE), "feature 32,768 of 32,768: refused 3");
    expect(is(florumeja_check(middle, sizeof middle, high, sizeof high), FLORUMEJA_DONE, 0), "feature 16,384 is in the goal alone");
    expect(is(florumeja_check(middle, sizeof middle, low, sizeof low), FLORUMEJA_ENDS_ALIKE, 0), "feature 16,383 is in neither end");
    expect(refused(florumeja_check(held, sizeof held, last, sizeof last), FLORUMEJA_HELD), "the start holds pair 32,767: refused 6");
    expect(is(florumeja_pair_fault(held, sizeof held, pair, 2), FLORUMEJA_HELD_PAIR, 0) && SAME(pair, of_held), "which is the pair that is named");
    memset(room, 7, sizeof room);
    expect(is(florumeja_mend(held, sizeof held, room, sizeof room), FLORUMEJA_DONE, sizeof freed_of_it - 1) && SAME(room, freed_of_it), "mended without it");
    memset(room, 7, sizeof room);
    expect(is(florumeja_dropped(held, sizeof held, room, sizeof room), FLORUMEJA_DONE, 4) && SAME(room, dropped), "dropped, in three bytes");
    expect(refused(florumeja_check(made, sizeof made, last, sizeof last), FLORUMEJA_UNCLOSED), "an operator makes pair 32,767: refused 7");
    expect(is(florumeja_pair_fault(made, sizeof made, pair, 2), FLORUMEJA_UNCLOSED_PAIR, 0) && SAME(pair, of_made), "that pair and that operator");
    memset(room, 7, sizeof room);
    expect(is(florumeja_dropped(made, sizeof made, room, sizeof room), FLORUMEJA_DONE, 4) && SAME(room, dropped), "of two pairs of three bytes one is dropped");
    expect(refused(florumeja_silence(corner, sizeof corner, marks, 5, room, 0), FLORUMEJA_LIMIT), "no feature left for \"unknown\": refused 2");
    /* Only variables 3 and 4 differ at the ends, and 168 is the least atom of theirs: 54 + 57 + 57. */
    expect(words != NULL, "128 MiB for a workspace");
    if (words == NULL) return;
    expect(refused(florumeja_open(corner, sizeof corner, words, due - 1), FLORUMEJA_SMALL), "a word too few for 32,768 features");
    expect(is(florumeja_open(corner, sizeof corner, words, due), FLORUMEJA_DONE, 16777744), "the workspace of 32,768 features");
    expect(due <= FLORUMEJA_WORKSPACE_WORDS, "which is no more than the most");
    memset(answer, 7, sizeof answer);
    expect(refused(florumeja_find(words, due, answer, FLORUMEJA_ANSWER_WORDS - 1), FLORUMEJA_SMALL) && answer[0] != 0, "a word too few for an answer");
    expect(is(florumeja_find(words, due, answer, 513), FLORUMEJA_DONE, 0) && answer[2] == 1ull << 40 && answer[512] != 0, "{168}");
    for (i = 0; i < 512; i++) others += i != 2 && answer[i] != 0;
    expect(others == 0, "and nothing else");
    free(words);
}

static void check_lines(void) {
    const uint8_t both[] = {2, 0, 2}, first[] = {1, 0}, third[] = {1, 2}, past[] = {1, 8}, padded[] = {0x82, 0};
    uint8_t room[FLORUMEJA_VERDICT_BYTES + 1];
    memset(room, 7, sizeof room);
    expect(refused(florumeja_check_line(task_b, sizeof task_b, both, sizeof both, room, 8), FLORUMEJA_SMALL) && room[0] == 7, "8 bytes are too few for `accepted`");
    expect(is(florumeja_check_line(task_b, sizeof task_b, both, sizeof both, room, 9), FLORUMEJA_DONE, 9) && memcmp(room, "accepted\n\7", 10) == 0, "B with {0,2}");
    expect(is(florumeja_check_line(task_b, sizeof task_b, first, sizeof first, room, sizeof room), FLORUMEJA_DONE, 20) && memcmp(room, "rejected ends alike\n\7", 21) == 0, "J's line");
    expect(is(florumeja_check_line(task_b, sizeof task_b, third, sizeof third, room, sizeof room), FLORUMEJA_DONE, 20) && memcmp(room, "rejected operator 0\n\7", 21) == 0, "K's line");
    expect(is(florumeja_check_line(task_g, sizeof task_g, first, sizeof first, room, sizeof room), FLORUMEJA_DONE, 10) && memcmp(room, "refused 7\n", 10) == 0, "G's line for a checker");
    memset(room, 7, sizeof room);
    expect(refused(florumeja_check_line(task_b, sizeof task_b, past, sizeof past, room, 25), FLORUMEJA_SMALL) && room[0] == 7, "25 bytes are too few for a place in the weights");
    expect(is(florumeja_check_line(task_b, sizeof task_b, past, sizeof past, room, 26), FLORUMEJA_DONE, 26) && memcmp(room, "refused 3 at 1 in weights\n\7", 27) == 0, "a place in the weights");
    memset(room, 7, sizeof room);
    expect(is(florumeja_check_line(padded, sizeof padded, past, sizeof past, room, 24), FLORUMEJA_DONE, 24) && memcmp(room, "refused 12 at 0 in task\n\7", 25) == 0, "a place in the task");
    memset(room, 7, sizeof room);
    expect(is(florumeja_check_line(task_b, 36, past, sizeof past, room, sizeof room), FLORUMEJA_DONE, 24) && memcmp(room, "refused 1 at 36 in task\n\7", 25) == 0, "the task is judged before the weights");
}

/* Two variables of two values, the first silent, from 0 0 to a 1 for the second; feature 7, which is 1 1, is exclusive. The built task has three values for
 * each, its goal is 2 1 and the pair's number is 10. By the letter it forgets the first from 0 alone, since 1 is exclusive with the named 1, and the second
 * from both. The lean one forgets the first from 0 and nothing else. */
static const uint8_t partial[] = {2, 2, 2, 0, 1, 0, 0, 1, 1, 7, 0};
static const uint8_t built[] = {2, 3, 3, 0, 0, 2, 1, 1, 10, 3, 1, 0, 0, 2, 1, 1, 0, 2, 1, 1, 1, 2, 7};
static const uint8_t lean[] = {2, 3, 3, 0, 0, 2, 1, 1, 10, 1, 1, 0, 0, 2, 7};

static void partial_builds(void) {
    const uint8_t marked[] = {2, 2, 2, 2}, unknown[] = {2, 2, 2, 0, 1, 0, 0, 2}, sized[] = {1, 64};
    uint8_t room[sizeof partial + FLORUMEJA_BUILT_MORE];
    memset(room, 7, sizeof room);
    expect(refused(florumeja_build_partial(partial, sizeof partial, room, 21), FLORUMEJA_SMALL) && room[0] == 7, "21 bytes are too few for the built task");
    expect(is(florumeja_build_partial(partial, sizeof partial, room, sizeof room), FLORUMEJA_DONE, 22) && SAME(room, built), "the built task by the letter");
    memset(room, 7, sizeof room);
    expect(refused(florumeja_build_partial_lean(partial, sizeof partial, room, 13), FLORUMEJA_SMALL) && room[0] == 7, "13 bytes are too few for the lean one");
    expect(is(florumeja_build_partial_lean(partial, sizeof partial, room, sizeof room), FLORUMEJA_DONE, 14) && SAME(room, lean), "the lean built task");
    expect(refused(florumeja_build_partial(marked, sizeof marked, room, 0), FLORUMEJA_RANGE), "a mark of 2: refused 3");
    expect(refused(florumeja_build_partial(unknown, sizeof unknown, room, 0), FLORUMEJA_RANGE), "\"unknown\" can't be named: refused 3");
    expect(refused(florumeja_build_partial_lean(sized, sizeof sized, room, 0), FLORUMEJA_LIMIT), "a size of 64: refused 2");
    expect(refused(florumeja_build_partial_lean(partial, sizeof partial - 1, room, sizeof room), FLORUMEJA_ENDS) && SAME(room, lean), "a byte short: refused 1");
}

/* 15 features, so 8 words before 15 slots of one word. The last bytes of both built tasks above are room that stays. */
static void partial_workspaces(void) {
    uint64_t room[24], other[24], answer[1] = {9};
    const uint64_t head[] = {2, 3, 3, 0, 0, 2, 1, 1024};
    memset(room, 0, sizeof room);
    memset(other, 0, sizeof other);
    expect(refused(florumeja_open_partial(partial, sizeof partial, room, 22), FLORUMEJA_SMALL) && room[0] == 0, "22 words are too few");
    expect(is(florumeja_open_partial(partial, sizeof partial, room, 24), FLORUMEJA_DONE, 23) && SAME(room, head), "a partial file is opened");
    expect(is(florumeja_open(built, sizeof built - 1, other, 24), FLORUMEJA_DONE, 23) && SAME(room, other), "with the words of its built task");
    expect(is(florumeja_find(room, 24, answer, 1), FLORUMEJA_NONE, 0) && answer[0] == 9, "by the letter both ends lead to all unknown");
    expect(is(florumeja_open(lean, sizeof lean - 1, room, 24), FLORUMEJA_DONE, 23), "the lean built task is opened");
    expect(is(florumeja_find(room, 24, answer, 1), FLORUMEJA_DONE, 0) && answer[0] == 8, "the second variable's 0, feature 3, separates");
}

/* Operators 1 and 2 forget the second variable. From 1 0 the first is never forgotten. */
static void partial_checks(void) {
    const uint8_t held[] = {2, 2, 2, 0, 1, 1, 0, 1, 1, 7, 0}, start[] = {2, 2, 2, 0, 1, 1, 1, 1, 1, 7, 0};
    const uint8_t first[] = {1, 1}, second[] = {1, 3}, past[] = {1, 15};
    expect(is(florumeja_check_partial(held, sizeof held, first, sizeof first), FLORUMEJA_DONE, 0), "the first variable's 1 is accepted");
    expect(is(florumeja_check_partial(partial, sizeof partial, first, sizeof first), FLORUMEJA_ENDS_ALIKE, 0), "ends alike");
    expect(is(florumeja_check_partial(partial, sizeof partial, second, sizeof second), FLORUMEJA_OPERATOR, 1), "forgetting the second variable's 0");
    expect(is(florumeja_check(lean, sizeof lean - 1, second, sizeof second), FLORUMEJA_DONE, 0), "which the lean task does not");
    expect(refused(florumeja_check_partial(partial, sizeof partial, past, sizeof past), FLORUMEJA_RANGE), "feature 15 of 15: refused 3");
    expect(refused(florumeja_check_partial(start, sizeof start, first, sizeof first), FLORUMEJA_HELD), "a start that holds the pair: refused 6");
}

/* The operator of `idle` is idle, since the one value of variable 1 is exclusive with what it needs of variable 0. With "unknown" for variable 1 it is not,
 * and it makes a value of variable 0 that is exclusive with a value of variable 2. */
static void silences(void) {
    static const uint8_t task[] = {2, 2, 2, 0, 0, 0, 1, 1, 7, 0}, wide[] = {2, 64, 62, 0, 0, 0, 1, 0, 0};
    static const uint8_t idle[] = {3, 2, 1, 2, 1, 0, 1, 0, 0, 1, 2, 5, 9, 1, 1, 0, 0, 1};
    const uint8_t marks[] = {0, 1, 1}, above[] = {0, 2};
    uint8_t room[sizeof idle + FLORUMEJA_SILENCED_MORE];
    uint64_t words[1];
    memset(room, 7, sizeof room);
    expect(refused(florumeja_silence(task, sizeof task, marks, 2, room, 10), FLORUMEJA_SMALL) && room[0] == 7, "10 bytes are too few for the partial file");
    expect(is(florumeja_silence(task, sizeof task, marks, 2, room, sizeof room), FLORUMEJA_DONE, 11) && SAME(room, partial), "the partial file");
    expect(refused(florumeja_silence(task, sizeof task, marks, 1, room, 0), FLORUMEJA_RANGE), "one mark for two variables: refused 3");
    expect(refused(florumeja_silence(task, sizeof task, marks, 3, room, 0), FLORUMEJA_RANGE), "three marks for two variables: refused 3");
    expect(refused(florumeja_silence(task, sizeof task, above, 2, room, 0), FLORUMEJA_RANGE), "a mark of 2 beside a task: refused 3");
    expect(refused(florumeja_silence(task_g, sizeof task_g, above, 2, room, 0), FLORUMEJA_UNCLOSED), "the task is judged before the marks: refused 7");
    expect(refused(florumeja_silence(wide, sizeof wide, marks, 2, room, 0), FLORUMEJA_LIMIT) && SAME(room, partial), "no room for \"unknown\": refused 2 before 8");
    expect(is(florumeja_silence(idle, sizeof idle, marks, 3, room, sizeof room), FLORUMEJA_DONE, 20), "a task with an idle operator");
    expect(refused(florumeja_open_partial(room, 20, words, 1), FLORUMEJA_UNCLOSED), "which is not idle in the built task: refused 7");
}

/* An order that is silent on every variable and lists all pairs but those that its start, all 0, holds; and its built task beside it. Answers their lengths. */
struct lengths {
    size_t order, built;
};

static struct lengths with_all_pairs(const uint8_t *sizes, size_t v, uint8_t *order, uint8_t *task) {
    uint8_t *one = order, *other = task;
    size_t i, j, x, y, atoms = 0, pairs = 0, number, new_number;
    struct lengths lengths;
    one = put(one, v);
    other = put(other, v);
    for (i = 0; i < v; i++) {
        one = put(one, sizes[i]);
        other = put(other, sizes[i] + 1u);
        for (j = 0; j < i; j++) pairs += (size_t)sizes[i] * sizes[j] - 1;
        atoms += sizes[i];
    }
    for (i = 0; i < 2 * v; i++) one = put(one, 0);
    for (i = 0; i < v; i++) other = put(other, 0);
    for (i = 0; i < v; i++) other = put(other, sizes[i]);
    one = put(one, pairs);
    other = put(other, pairs);
    number = atoms;
    new_number = atoms + v;
    for (i = 0; i < v; i++) {
        for (j = i + 1; j < v; j++) {
            for (x = 0; x < sizes[i]; x++) {
                for (y = 0; y < sizes[j]; y++) {
                    if (x + y > 0) {
                        one = put(one, number + x * sizes[j] + y);
                        other = put(other, new_number + x * (sizes[j] + 1u) + y);
                    }
                }
            }
            number += (size_t)sizes[i] * sizes[j];
            new_number += (sizes[i] + 1u) * (sizes[j] + 1u);
        }
    }
    one = put(one, 0);
    other = put(other, atoms);
    for (i = 0; i < v; i++) {
        for (x = 0; x < sizes[i]; x++) other = put(put(put(put(other, 1), i), x), sizes[i]);
    }
    lengths.order = (size_t)(one - order);
    lengths.built = (size_t)(other - task);
    return lengths;
}

/* How much longer a built task is: a byte for each listed pair that passes 128 or 16,384, four for each operator, and one where their count takes two. 16 of size 2: pairs 68
 * to 127 but for 15 that the start holds. 64 of size 3: 9,264 to 16,383 but for 792. 40 of size 1 and 24 of size 6, the worst that was found: 6,544 to 16,383 but for 299.
 * The sizes with the most operators: 15,876 to 16,383. */
static void built_lengths(void) {
    static const struct { const char *name; size_t ones; uint8_t size, last; size_t v, more; } shapes[] = {
        {"16 of size 2", 0, 2, 2, 16, 60 - 15 + 4 * 32},
        {"64 of size 3", 0, 3, 3, 64, 7120 - 792 + 4 * 192 + 1},
        {"40 of size 1 and 24 of size 6", 40, 6, 6, 64, 9840 - 299 + 4 * 184 + 1},
        {"4 of size 63 and one of 29", 0, 63, 29, 5, 508 + 4 * 281 + 1},
    };
    static uint8_t order[100000], task[100000], room[100000 + FLORUMEJA_BUILT_MORE];
    uint8_t sizes[64];
    size_t i, k;
    for (k = 0; k < COUNT(shapes); k++) {
        struct lengths due;
        for (i = 0; i < shapes[k].v; i++) sizes[i] = i < shapes[k].ones ? 1 : shapes[k].size;
        sizes[shapes[k].v - 1] = shapes[k].last;
        due = with_all_pairs(sizes, shapes[k].v, order, task);
        expect_of(due.built == due.order + shapes[k].more && shapes[k].more <= FLORUMEJA_BUILT_MORE, shapes[k].name, ", how much is added");
        memset(room, 7, sizeof room);
        expect_of(refused(florumeja_build_partial(order, due.order, room, due.built - 1), FLORUMEJA_SMALL) && room[0] == 7, shapes[k].name, ", a byte too few");
        expect_of(is(florumeja_build_partial(order, due.order, room, due.order + FLORUMEJA_BUILT_MORE), FLORUMEJA_DONE, (uint32_t)due.built)
                      && memcmp(room, task, due.built) == 0 && room[due.built] == 7, shapes[k].name, ", built");
        memset(room, 7, sizeof room);
        expect_of(is(florumeja_build_partial_lean(order, due.order, room, due.built), FLORUMEJA_DONE, (uint32_t)due.built) && memcmp(room, task, due.built) == 0, shapes[k].name, ", built lean");
    }
}

/* Pairs 5 and 7 are 01 and 11. Operator 0 takes variable 0 from 1 to 0, and spares 01 as long as 11 is listed; operator 1 needs 10 and leads to 11. So 7 goes
 * because of operator 1, and then 5 because of operator 0. */
static const uint8_t chain[] = {2, 2, 2, 0, 0, 0, 1, 2, 5, 7, 2, 1, 0, 1, 0, 2, 0, 1, 1, 1, 0, 1};
static const uint8_t shorter[] = {2, 2, 2, 0, 0, 0, 1, 1, 5, 2, 1, 0, 1, 0, 2, 0, 1, 1, 1, 0, 1};
static const uint8_t unpaired[] = {2, 2, 2, 0, 0, 0, 1, 0, 2, 1, 0, 1, 0, 2, 0, 1, 1, 1, 0, 1, 7};

/* The start of `holding` is 00: it holds pair 4, and without that the operator, from 00 to 11, is no longer idle and breaks 7. Pair 6 is 10 and stays. */
static const uint8_t holding[] = {2, 2, 2, 0, 0, 0, 1, 3, 4, 6, 7, 1, 2, 0, 0, 1, 1, 0, 1};
static const uint8_t freed[] = {2, 2, 2, 0, 0, 0, 1, 1, 6, 1, 2, 0, 0, 1, 1, 0, 1, 7};

static void mends(void) {
    static const uint8_t mended_d[] = {2, 2, 2, 0, 0, 1, 0, 0, 1, 1, 0, 0, 1, 7}, mended_h[] = {2, 2, 2, 1, 1, 0, 0, 0, 0, 7};
    const uint8_t sevens[] = {7, 7, 7, 7, 7, 7, 7, 7}, zero[] = {0, 0}, sized[] = {1, 65}, twice[] = {2, 2, 2, 0, 0, 0, 1, 2, 5, 5, 0}, low[] = {2, 2, 2, 0, 0, 0, 1, 1, 3, 0};
    uint8_t room[32];
    memset(room, 7, sizeof room);
    expect(refused(florumeja_mend(task_g, sizeof task_g, room, 12), FLORUMEJA_SMALL) && SAME(room, sevens), "12 bytes are too few for the mended G");
    expect(is(florumeja_mend(task_g, sizeof task_g, room, sizeof room), FLORUMEJA_DONE, 13) && SAME(room, mended_d), "G mended is D");
    memset(room, 7, sizeof room);
    expect(is(florumeja_mend(task_h, sizeof task_h, room, 9), FLORUMEJA_DONE, 9) && SAME(room, mended_h), "H mended, in as many bytes as are due");
    memset(room, 7, sizeof room);
    expect(is(florumeja_mend(task_i, sizeof task_i, room, sizeof task_i), FLORUMEJA_DONE, 17) && SAME(room, task_i) && room[17] == 7, "I comes back");
    expect(is(florumeja_mend(task_l, sizeof task_l, room, sizeof room), FLORUMEJA_DONE, 15) && SAME(room, task_l), "L comes back");
    memset(room, 7, sizeof room);
    expect(is(florumeja_mend(chain, sizeof chain, room, sizeof room), FLORUMEJA_DONE, 20) && SAME(room, unpaired), "a pair goes, and then another");
    memset(room, 7, sizeof room);
    expect(is(florumeja_mend(holding, sizeof holding, room, sizeof room), FLORUMEJA_DONE, 17) && SAME(room, freed), "an operator is idle no more");
    memset(room, 7, sizeof room);
    expect(refused(florumeja_mend(task_g, 0, room, sizeof room), FLORUMEJA_ENDS), "no task to mend: refused 1");
    expect(refused(florumeja_mend(sized, sizeof sized, room, sizeof room), FLORUMEJA_LIMIT), "a size of 65: refused 2");
    expect(refused(florumeja_mend(low, sizeof low, room, sizeof room), FLORUMEJA_RANGE), "an atom in the pair list: refused 3");
    expect(refused(florumeja_mend(twice, sizeof twice, room, 0), FLORUMEJA_UNORDERED), "a pair twice: refused 4 before 8");
    expect(refused(florumeja_mend(mended_d, sizeof mended_d, room, sizeof room), FLORUMEJA_LEFT_OVER) && SAME(room, sevens), "a byte left over: refused 5");
    expect(refused(florumeja_mend(zero, sizeof zero, room, 0), FLORUMEJA_LIMIT), "no variable in a new file and no room: refused 2 before 8");
}

static void drops(void) {
    const uint8_t sevens[] = {7, 7, 7, 7}, seventh[] = {1, 7, 7}, none[] = {0, 7}, both[] = {2, 5, 7, 7}, apart[] = {2, 4, 7, 7};
    uint8_t room[4];
    memset(room, 7, sizeof room);
    expect(refused(florumeja_dropped(task_g, sizeof task_g, room, 1), FLORUMEJA_SMALL) && SAME(room, sevens), "a byte is too few for what G drops");
    expect(is(florumeja_dropped(task_g, sizeof task_g, room, 2), FLORUMEJA_DONE, 2) && SAME(room, seventh), "G drops 7");
    expect(is(florumeja_dropped(chain, sizeof chain, room, sizeof room), FLORUMEJA_DONE, 3) && SAME(room, both), "5 and 7, increasing, though 7 goes first");
    expect(is(florumeja_dropped(holding, sizeof holding, room, sizeof room), FLORUMEJA_DONE, 3) && SAME(room, apart), "4 and 7, and 6 stays");
    memset(room, 7, sizeof room);
    expect(is(florumeja_dropped(task_i, sizeof task_i, room, 1), FLORUMEJA_DONE, 1) && SAME(room, none), "I drops nothing");
    expect(refused(florumeja_dropped(task_i, sizeof task_i, room, 0), FLORUMEJA_SMALL), "nothing takes a byte too");
    expect(refused(florumeja_dropped(task_g, sizeof task_g - 1, room, 0), FLORUMEJA_ENDS) && SAME(room, none), "a byte short: refused 1 before 8");
}

static void pair_faults(void) {
    uint64_t room[3] = {9, 9, 9};
    const uint64_t nines[] = {9, 9, 9}, held_h[] = {7, 9, 9}, unclosed_g[] = {7, 0, 9}, first[] = {7, 1, 9}, second[] = {5, 0, 9}, least[] = {4, 0, 9};
    expect(is(florumeja_pair_fault(task_i, sizeof task_i, room, FLORUMEJA_FAULT_WORDS), FLORUMEJA_DONE, 0) && SAME(room, nines), "I's list is good");
    expect(is(florumeja_pair_fault(task_l, sizeof task_l, room, 3), FLORUMEJA_DONE, 0) && SAME(room, nines), "L's list is good, as lift is idle");
    expect(refused(florumeja_pair_fault(task_g, sizeof task_g, room, 1), FLORUMEJA_SMALL) && SAME(room, nines), "a word is too few");
    expect(refused(florumeja_pair_fault(task_i, sizeof task_i, room, 0), FLORUMEJA_SMALL) && SAME(room, nines), "even for a good list");
    expect(refused(florumeja_pair_fault(task_g, sizeof task_g - 1, room, 0), FLORUMEJA_ENDS) && SAME(room, nines), "a byte short: refused 1, not 8");
    expect(is(florumeja_pair_fault(task_h, sizeof task_h, room, 3), FLORUMEJA_HELD_PAIR, 0) && SAME(room, held_h), "H: the start holds 7, and the second word stays");
    expect(is(florumeja_pair_fault(task_g, sizeof task_g, room, 3), FLORUMEJA_UNCLOSED_PAIR, 0) && SAME(room, unclosed_g), "G: 7 and operator 0");
    expect(is(florumeja_pair_fault(chain, sizeof chain, room, 2), FLORUMEJA_UNCLOSED_PAIR, 0) && SAME(room, first), "7 and operator 1");
    expect(is(florumeja_pair_fault(shorter, sizeof shorter, room, 2), FLORUMEJA_UNCLOSED_PAIR, 0) && SAME(room, second), "without 7, 5 and operator 0");
    expect(is(florumeja_pair_fault(holding, sizeof holding, room, 3), FLORUMEJA_HELD_PAIR, 0) && SAME(room, least), "the start holds 4");
    expect(is(florumeja_pair_fault(unpaired, sizeof unpaired - 1, room, 3), FLORUMEJA_DONE, 0) && SAME(room, least), "what is mended is good");
}

/* A task with so many operators: the last one alone, lift, breaks {0}. The others set variable 1 from 0 to 0. Answers its length. */
static size_t lifted_last(uint8_t *task, size_t count) {
    static const uint8_t head[] = {2, 2, 2, 0, 0, 1, 0, 0}, still[] = {1, 1, 0, 0}, lift[] = {1, 0, 0, 1};
    uint8_t *at = put(task + sizeof head, count);
    size_t i;
    memcpy(task, head, sizeof head);
    for (i = 1; i <= count; i++, at += 4) memcpy(at, i < count ? still : lift, 4);
    return (size_t)(at - task);
}

/* The most that two bytes count, one more, and as many operators as a file can count: no operator's line is longer. */
static void last_operator(void) {
    static uint8_t task[8 + 3 + MOST_COUNTED * 4];
    static const struct { size_t count; const char *line; } lines[] = {
        {16383, "rejected operator 16382\n"}, {16384, "rejected operator 16383\n"}, {MOST_COUNTED, "rejected operator 2097150\n"}};
    const uint8_t first[] = {1, 0};
    uint8_t room[26];
    size_t i, length, due;
    for (i = 0; i < COUNT(lines); i++) {
        length = lifted_last(task, lines[i].count);
        due = strlen(lines[i].line);
        expect_of(is(florumeja_check(task, length, first, sizeof first), FLORUMEJA_OPERATOR, (uint32_t)lines[i].count - 1), "the last operator: ", lines[i].line);
        expect_of(is(florumeja_check_line(task, length, first, sizeof first, room, sizeof room), FLORUMEJA_DONE, (uint32_t)due)
                      && memcmp(room, lines[i].line, due) == 0, "the last operator's line: ", lines[i].line);
        /* The longest file takes as long as all others, and what is refused is told by those before it. */
        if (lines[i].count == MOST_COUNTED) continue;
        expect_of(refused(florumeja_check_line(task, length, first, sizeof first, room, due - 1), FLORUMEJA_SMALL), "a byte too few for ", lines[i].line);
        expect_of(refused(florumeja_check(task, length - 1, first, sizeof first), FLORUMEJA_ENDS), "without the last byte: ", lines[i].line);
    }
    expect(length == sizeof task, "as many operators as a file can count");
}

/* A task, an order or a bay, and the weights beside it, of which a bay has none; the number by which they are refused, 0 where they aren't; which file holds the
 * part that is shown, where it begins there, and how many bytes it has. */
struct shown {
    const char *what;
    const char *first;
    size_t first_length;
    const char *weights;
    size_t weights_length;
    uint32_t number, holder;
    uint64_t begins, many;
};

#define BYTES(text) text, sizeof(text) - 1

/* A weight file that lists nothing. */
#define UNWEIGHED BYTES("\x00")

/* Case A's task, from 00 to 01: places 0 to 2 are v and sizes, 3 and 4 the start, 5 and 6 the goal, 7 the pairs' count, 8 the operators'. */
#define TASK_A BYTES("\x02\x02\x02\x00\x00\x00\x01\x00\x00")

/* The same as a new file, and what stands there before the pairs' count, at place 8. */
#define NEW_FRONT "\x00\x02\x02\x02\x00\x00\x00\x01"
#define NEW_TASK_A BYTES(NEW_FRONT "\x00\x00")

static const struct shown shown_tasks[] = {
    {"nothing at fault", TASK_A, BYTES("\x01\x02"), 0, FLORUMEJA_IN_TASK, 0, 0},
    {"weights that are rejected", TASK_A, BYTES("\x01\x00"), 0, FLORUMEJA_IN_TASK, 0, 0},
    {"1: no bytes at all", BYTES(""), BYTES(""), FLORUMEJA_ENDS, FLORUMEJA_IN_TASK, 0, 0},
    {"1: the file ends before a size", BYTES("\x02\x02"), UNWEIGHED, FLORUMEJA_ENDS, FLORUMEJA_IN_TASK, 2, 0},
    {"1: the file ends inside v, before its third byte", BYTES("\x80\x80"), UNWEIGHED, FLORUMEJA_ENDS, FLORUMEJA_IN_TASK, 0, 2},
    {"1: the file ends inside a size, before its third byte", BYTES("\x02\xff\xff"), UNWEIGHED, FLORUMEJA_ENDS, FLORUMEJA_IN_TASK, 1, 2},
    {"1: 2,097,151 pairs are due, and one is there", BYTES("\x02\x02\x02\x00\x00\x00\x01\xff\xff\x7f\x05"), UNWEIGHED, FLORUMEJA_ENDS, FLORUMEJA_IN_TASK, 11, 0},
    {"1: 2,097,151 operators are due, and none is there", BYTES("\x02\x02\x02\x00\x00\x00\x01\x00\xff\xff\x7f"), UNWEIGHED, FLORUMEJA_ENDS, FLORUMEJA_IN_TASK, 11, 0},
    {"1: sizes 64 and 63 are taken", BYTES("\x02\x40\x3f"), UNWEIGHED, FLORUMEJA_ENDS, FLORUMEJA_IN_TASK, 3, 0},
    {"1: N is 32,768 and taken", BYTES("\x05\x36\x39\x39\x3a\x3b"), UNWEIGHED, FLORUMEJA_ENDS, FLORUMEJA_IN_TASK, 6, 0},
    {"1: the file ends inside a start value", BYTES("\x02\x02\x02\x80"), UNWEIGHED, FLORUMEJA_ENDS, FLORUMEJA_IN_TASK, 3, 1},
    {"1: a new file ends behind its 0", BYTES("\x00"), UNWEIGHED, FLORUMEJA_ENDS, FLORUMEJA_IN_TASK, 1, 0},
    {"2: no variable", BYTES("\x00\x00"), UNWEIGHED, FLORUMEJA_LIMIT, FLORUMEJA_IN_TASK, 1, 1},
    {"2: 65 variables of a new file", BYTES("\x00\x41\x02"), UNWEIGHED, FLORUMEJA_LIMIT, FLORUMEJA_IN_TASK, 1, 1},
    {"2: 128 variables, in two bytes", BYTES("\x80\x01\x02"), UNWEIGHED, FLORUMEJA_LIMIT, FLORUMEJA_IN_TASK, 0, 2},
    {"2: a size of 65", BYTES("\x01\x41"), UNWEIGHED, FLORUMEJA_LIMIT, FLORUMEJA_IN_TASK, 1, 1},
    {"2: 16,384 variables, in three bytes", BYTES("\x80\x80\x01"), UNWEIGHED, FLORUMEJA_LIMIT, FLORUMEJA_IN_TASK, 0, 3},
    {"2: 2,097,151 variables", BYTES("\xff\xff\x7f\x02"), UNWEIGHED, FLORUMEJA_LIMIT, FLORUMEJA_IN_TASK, 0, 3},
    {"2: N is 32,769, at the last size", BYTES("\x05\x36\x39\x3a\x3a\x3a\x00"), UNWEIGHED, FLORUMEJA_LIMIT, FLORUMEJA_IN_TASK, 5, 1},
    {"3: a start value of two", BYTES("\x02\x02\x02\x00\x02"), UNWEIGHED, FLORUMEJA_RANGE, FLORUMEJA_IN_TASK, 4, 1},
    {"3: a start value of 128, in two bytes", BYTES("\x02\x02\x02\x80\x01"), UNWEIGHED, FLORUMEJA_RANGE, FLORUMEJA_IN_TASK, 3, 2},
    {"3: a start value of 16,384, in three bytes", BYTES("\x02\x02\x02\x80\x80\x01"), UNWEIGHED, FLORUMEJA_RANGE, FLORUMEJA_IN_TASK, 3, 3},
    {"3: an entry count of 2,097,151", BYTES("\x02\x02\x02\x00\x00\x00\x01\x00\x01\xff\xff\x7f\x00"), UNWEIGHED, FLORUMEJA_RANGE, FLORUMEJA_IN_TASK, 9, 3},
    {"3: pair 32,768 of 32,768", BYTES("\x05\x36\x39\x39\x3a\x3b\x00\x00\x00\x00\x00\x00\x00\x00\x00\x00\x01\x80\x80\x02"), UNWEIGHED, FLORUMEJA_RANGE, FLORUMEJA_IN_TASK, 17, 3},
    {"3: an after value, past the ninth place", BYTES("\x02\x02\x02\x00\x00\x00\x01\x00\x01\x01\x00\x00\x02"), UNWEIGHED, FLORUMEJA_RANGE, FLORUMEJA_IN_TASK, 12, 1},
    {"4: a pair twice", BYTES("\x02\x02\x02\x00\x00\x00\x01\x02\x05\x05\x00"), UNWEIGHED, FLORUMEJA_UNORDERED, FLORUMEJA_IN_TASK, 9, 1},
    {"4: pair 130 of 64 and 2 values twice, in two bytes each", BYTES("\x02\x40\x02\x00\x00\x00\x01\x02\x82\x01\x82\x01\x00"), UNWEIGHED, FLORUMEJA_UNORDERED, FLORUMEJA_IN_TASK, 10, 2},
    {"4: pair 16,384 twice, in three bytes each", BYTES("\x05\x36\x39\x39\x3a\x3b\x00\x00\x00\x00\x00\x00\x00\x00\x00\x00\x02\x80\x80\x01\x80\x80\x01\x00"), UNWEIGHED, FLORUMEJA_UNORDERED, FLORUMEJA_IN_TASK, 20, 3},
    {"4: pair 16,383 behind 16,384", BYTES("\x05\x36\x39\x39\x3a\x3b\x00\x00\x00\x00\x00\x00\x00\x00\x00\x00\x02\x80\x80\x01\xff\x7f\x00"), UNWEIGHED, FLORUMEJA_UNORDERED, FLORUMEJA_IN_TASK, 20, 2},
    {"5: a byte left over has no place", BYTES("\x02\x02\x02\x00\x00\x00\x01\x00\x00\x00"), BYTES(""), FLORUMEJA_LEFT_OVER, FLORUMEJA_IN_TASK, 0, 0},
    {"6: a held pair has no place", BYTES("\x02\x02\x02\x01\x01\x00\x00\x01\x07\x00"), BYTES(""), FLORUMEJA_HELD, FLORUMEJA_IN_TASK, 0, 0},
    {"7: an unclosed pair has no place", BYTES("\x02\x02\x02\x00\x00\x01\x00\x01\x07\x01\x01\x00\x00\x01"), BYTES(""), FLORUMEJA_UNCLOSED, FLORUMEJA_IN_TASK, 0, 0},
    {"12: v in two bytes where one is enough", BYTES("\x82\x00\x02"), UNWEIGHED, FLORUMEJA_PADDED, FLORUMEJA_IN_TASK, 0, 2},
    {"12: an operator count of 0 in two bytes", BYTES("\x02\x02\x02\x00\x00\x00\x01\x00\x80\x00"), UNWEIGHED, FLORUMEJA_PADDED, FLORUMEJA_IN_TASK, 8, 2},
    {"12: v in three bytes, of which the last is 0", BYTES("\x80\x80\x00"), UNWEIGHED, FLORUMEJA_PADDED, FLORUMEJA_IN_TASK, 0, 3},
    {"12: a size of 16,383 in three bytes where two are enough", BYTES("\x02\xff\xff\x00\x02"), UNWEIGHED, FLORUMEJA_PADDED, FLORUMEJA_IN_TASK, 1, 3},
    {"13: v in four bytes, of which three are shown", BYTES("\x80\x80\x80\x01"), UNWEIGHED, FLORUMEJA_ENDLESS, FLORUMEJA_IN_TASK, 0, 3},
    {"13: v whose fourth byte is 0", BYTES("\x81\x80\x80\x00"), UNWEIGHED, FLORUMEJA_ENDLESS, FLORUMEJA_IN_TASK, 0, 3},
    {"13: the third byte is the last", BYTES("\x02\xff\xff\xff"), UNWEIGHED, FLORUMEJA_ENDLESS, FLORUMEJA_IN_TASK, 1, 3},
    {"1 in the weights: no bytes", TASK_A, BYTES(""), FLORUMEJA_ENDS, FLORUMEJA_IN_WEIGHTS, 0, 0},
    {"1 in the weights: a weight is missing", TASK_A, BYTES("\x02\x01"), FLORUMEJA_ENDS, FLORUMEJA_IN_WEIGHTS, 2, 0},
    {"1 in the weights: they end inside a weight", TASK_A, BYTES("\x02\x01\xff"), FLORUMEJA_ENDS, FLORUMEJA_IN_WEIGHTS, 2, 1},
    {"3 in the weights: feature 8 of 8", TASK_A, BYTES("\x02\x01\x08"), FLORUMEJA_RANGE, FLORUMEJA_IN_WEIGHTS, 2, 1},
    {"3 in the weights: feature 16,383", TASK_A, BYTES("\x01\xff\x7f"), FLORUMEJA_RANGE, FLORUMEJA_IN_WEIGHTS, 1, 2},
    {"1 in the weights: they end inside a weight, before its third byte", TASK_A, BYTES("\x01\x80\x80"), FLORUMEJA_ENDS, FLORUMEJA_IN_WEIGHTS, 1, 2},
    {"1 in the weights: 2,097,151 are due, and one is there", TASK_A, BYTES("\xff\xff\x7f\x02"), FLORUMEJA_ENDS, FLORUMEJA_IN_WEIGHTS, 4, 0},
    {"3 in the weights: feature 16,384", TASK_A, BYTES("\x01\x80\x80\x01"), FLORUMEJA_RANGE, FLORUMEJA_IN_WEIGHTS, 1, 3},
    {"3 in the weights: feature 2,097,151", TASK_A, BYTES("\x01\xff\xff\x7f"), FLORUMEJA_RANGE, FLORUMEJA_IN_WEIGHTS, 1, 3},
    {"4 in the weights: they fall", TASK_A, BYTES("\x03\x01\x03\x02"), FLORUMEJA_UNORDERED, FLORUMEJA_IN_WEIGHTS, 3, 1},
    {"5 in the weights has no place, and the part is the task's", TASK_A, BYTES("\x01\x02\x00"), FLORUMEJA_LEFT_OVER, FLORUMEJA_IN_TASK, 0, 0},
    {"12 in the weights", TASK_A, BYTES("\x01\x82\x00"), FLORUMEJA_PADDED, FLORUMEJA_IN_WEIGHTS, 1, 2},
    {"12 in the weights, in the third byte", TASK_A, BYTES("\x01\x82\x80\x00"), FLORUMEJA_PADDED, FLORUMEJA_IN_WEIGHTS, 1, 3},
    {"13 in the weights", TASK_A, BYTES("\x82\x82\x82"), FLORUMEJA_ENDLESS, FLORUMEJA_IN_WEIGHTS, 0, 3},
    {"faults in both: the task's", BYTES("\x02\x00"), BYTES("\x80\x80\x80"), FLORUMEJA_LIMIT, FLORUMEJA_IN_TASK, 1, 1},
    {"nothing at fault in a new task", NEW_TASK_A, BYTES("\x01\x02"), 0, FLORUMEJA_IN_TASK, 0, 0},
    {"1: the first pair and a gap of one are taken", BYTES(NEW_FRONT "\x03\x05\x00"), UNWEIGHED, FLORUMEJA_ENDS, FLORUMEJA_IN_TASK, 11, 0},
    {"1: a gap to the last feature is taken", BYTES(NEW_FRONT "\x02\x05\x01"), UNWEIGHED, FLORUMEJA_ENDS, FLORUMEJA_IN_TASK, 11, 0},
    {"3: a gap past the last feature", BYTES(NEW_FRONT "\x02\x05\x02\x00"), UNWEIGHED, FLORUMEJA_RANGE, FLORUMEJA_IN_TASK, 10, 1},
    {"3: the least gap behind the last feature", BYTES(NEW_FRONT "\x02\x07\x00\x00"), UNWEIGHED, FLORUMEJA_RANGE, FLORUMEJA_IN_TASK, 10, 1},
    {"3: the first pair of a new file is an atom", BYTES(NEW_FRONT "\x01\x03"), UNWEIGHED, FLORUMEJA_RANGE, FLORUMEJA_IN_TASK, 9, 1},
    {"3: a gap of 2,097,152", BYTES(NEW_FRONT "\x02\x05\xff\xff\x7f"), UNWEIGHED, FLORUMEJA_RANGE, FLORUMEJA_IN_TASK, 10, 3},
    {"12: a gap in two bytes where one is enough", BYTES(NEW_FRONT "\x02\x05\x80\x00"), UNWEIGHED, FLORUMEJA_PADDED, FLORUMEJA_IN_TASK, 10, 2},
    {"4: entries of a new file", BYTES(NEW_FRONT "\x00\x01\x02\x00\x00\x01\x00"), UNWEIGHED, FLORUMEJA_UNORDERED, FLORUMEJA_IN_TASK, 14, 1},
    {"5: a byte of a new file left over", BYTES(NEW_FRONT "\x00\x00\x00"), UNWEIGHED, FLORUMEJA_LEFT_OVER, FLORUMEJA_IN_TASK, 0, 0},
    {"12: the 0 of a new file in two bytes", BYTES("\x80\x00\x02"), UNWEIGHED, FLORUMEJA_PADDED, FLORUMEJA_IN_TASK, 0, 2},
    {"3 in the weights of a new task", NEW_TASK_A, BYTES("\x01\x08"), FLORUMEJA_RANGE, FLORUMEJA_IN_WEIGHTS, 1, 1},
    {"5: new weights where old ones are due list nothing, and all else is left over", TASK_A, BYTES("\x00\x01\x02"), FLORUMEJA_LEFT_OVER, FLORUMEJA_IN_TASK, 0, 0},
};

/* The same with weights that are a new file: 0, the count, the first feature and then each gap less one. */
static const struct shown shown_new[] = {
    {"nothing at fault in new weights", TASK_A, BYTES("\x00\x01\x02"), 0, FLORUMEJA_IN_TASK, 0, 0},
    {"new weights of a new task", NEW_TASK_A, BYTES("\x00\x02\x01\x05"), 0, FLORUMEJA_IN_TASK, 0, 0},
    {"1: no new weights", TASK_A, BYTES(""), FLORUMEJA_ENDS, FLORUMEJA_IN_WEIGHTS, 0, 0},
    {"1: new weights end behind their 0", TASK_A, BYTES("\x00"), FLORUMEJA_ENDS, FLORUMEJA_IN_WEIGHTS, 1, 0},
    {"1: a gap is missing", TASK_A, BYTES("\x00\x02\x01"), FLORUMEJA_ENDS, FLORUMEJA_IN_WEIGHTS, 3, 0},
    {"3: an old weight file where a new one is due", TASK_A, BYTES("\x01\x02"), FLORUMEJA_RANGE, FLORUMEJA_IN_WEIGHTS, 0, 1},
    {"3: new weights that begin with 128", TASK_A, BYTES("\x80\x01\x00"), FLORUMEJA_RANGE, FLORUMEJA_IN_WEIGHTS, 0, 2},
    {"3: feature 8 of 8 in new weights", TASK_A, BYTES("\x00\x01\x08"), FLORUMEJA_RANGE, FLORUMEJA_IN_WEIGHTS, 2, 1},
    {"3: a gap from 1 to feature 8 of 8", TASK_A, BYTES("\x00\x02\x01\x06"), FLORUMEJA_RANGE, FLORUMEJA_IN_WEIGHTS, 3, 1},
    {"3: a gap behind the last weight", TASK_A, BYTES("\x00\x02\x07\x00"), FLORUMEJA_RANGE, FLORUMEJA_IN_WEIGHTS, 3, 1},
    {"5: a byte of new weights left over", TASK_A, BYTES("\x00\x01\x02\x00"), FLORUMEJA_LEFT_OVER, FLORUMEJA_IN_TASK, 0, 0},
    {"12: the 0 of new weights in two bytes", TASK_A, BYTES("\x80\x00\x00"), FLORUMEJA_PADDED, FLORUMEJA_IN_WEIGHTS, 0, 2},
    {"13: a count of new weights that does not end", TASK_A, BYTES("\x00\x82\x82\x82"), FLORUMEJA_ENDLESS, FLORUMEJA_IN_WEIGHTS, 1, 3},
    {"faults in the task and in new weights: the task's", BYTES("\x00\x02\x00"), BYTES("\x01"), FLORUMEJA_LIMIT, FLORUMEJA_IN_TASK, 2, 1},
};

/* Marks stand behind the sizes, and a goal value for the named variables only. With two values each, places 3 and 4 are the marks, 5 and 6 the start, 7 the one goal
 * value, 8 the pairs' count. A built size is one more. */
#define ORDER BYTES("\x02\x02\x02\x00\x01\x00\x00\x01\x01\x07\x00")

static const struct shown shown_partials[] = {
    {"nothing at fault in an order", ORDER, UNWEIGHED, 0, FLORUMEJA_IN_TASK, 0, 0},
    {"feature 14 of the built task's 15", ORDER, BYTES("\x01\x0e"), 0, FLORUMEJA_IN_TASK, 0, 0},
    {"1: an order of no bytes", BYTES(""), UNWEIGHED, FLORUMEJA_ENDS, FLORUMEJA_IN_TASK, 0, 0},
    {"1: an order without its last byte", BYTES("\x02\x02\x02\x00\x01\x00\x00\x01\x01\x07"), UNWEIGHED, FLORUMEJA_ENDS, FLORUMEJA_IN_TASK, 10, 0},
    {"1: an order ends inside a mark", BYTES("\x01\x02\x81"), UNWEIGHED, FLORUMEJA_ENDS, FLORUMEJA_IN_TASK, 2, 1},
    {"2: a size of 64 in an order", BYTES("\x01\x40"), UNWEIGHED, FLORUMEJA_LIMIT, FLORUMEJA_IN_TASK, 1, 1},
    {"2: the built N is 32,769, at the last size", BYTES("\x05\x35\x38\x39\x39\x39\x00"), UNWEIGHED, FLORUMEJA_LIMIT, FLORUMEJA_IN_TASK, 5, 1},
    {"1: the built N is 32,768 and taken", BYTES("\x05\x35\x38\x38\x39\x3a"), UNWEIGHED, FLORUMEJA_ENDS, FLORUMEJA_IN_TASK, 6, 0},
    {"1: the built N is 4,159 and taken", BYTES("\x02\x3f\x3e"), UNWEIGHED, FLORUMEJA_ENDS, FLORUMEJA_IN_TASK, 3, 0},
    {"2: 16 of size 16, as in a bay of sixteen: the built N is 34,952", BYTES("\x10\x10\x10\x10\x10\x10\x10\x10\x10\x10\x10\x10\x10\x10\x10\x10\x10\x00"), UNWEIGHED, FLORUMEJA_LIMIT, FLORUMEJA_IN_TASK, 16, 1},
    {"1: 15 of size 15, as in a bay of fifteen: the built N is 27,120", BYTES("\x0f\x0f\x0f\x0f\x0f\x0f\x0f\x0f\x0f\x0f\x0f\x0f\x0f\x0f\x0f\x0f"), UNWEIGHED, FLORUMEJA_ENDS, FLORUMEJA_IN_TASK, 16, 0},
    {"3: a mark of 2 in an order", BYTES("\x02\x02\x02\x01\x02"), UNWEIGHED, FLORUMEJA_RANGE, FLORUMEJA_IN_TASK, 4, 1},
    {"3: \"unknown\" as a goal value", BYTES("\x02\x02\x02\x00\x01\x00\x00\x02"), UNWEIGHED, FLORUMEJA_RANGE, FLORUMEJA_IN_TASK, 7, 1},
    {"4: a pair of an order twice", BYTES("\x02\x02\x02\x00\x01\x00\x00\x01\x02\x07\x07\x00"), UNWEIGHED, FLORUMEJA_UNORDERED, FLORUMEJA_IN_TASK, 10, 1},
    {"5: a byte of an order left over", BYTES("\x02\x02\x02\x00\x01\x00\x00\x01\x01\x07\x00\x00"), UNWEIGHED, FLORUMEJA_LEFT_OVER, FLORUMEJA_IN_TASK, 0, 0},
    {"6: an order whose start holds the pair", BYTES("\x02\x02\x02\x00\x01\x01\x01\x01\x01\x07\x00"), BYTES(""), FLORUMEJA_HELD, FLORUMEJA_IN_TASK, 0, 0},
    {"7: the order of a task with an idle operator", BYTES("\x03\x02\x01\x02\x00\x01\x01\x01\x00\x01\x00\x01\x02\x05\x09\x01\x01\x00\x00\x01"), BYTES(""), FLORUMEJA_UNCLOSED, FLORUMEJA_IN_TASK, 0, 0},
    {"12: a mark in two bytes where one is enough", BYTES("\x02\x02\x02\x80\x00"), UNWEIGHED, FLORUMEJA_PADDED, FLORUMEJA_IN_TASK, 3, 2},
    {"12: a mark in three bytes", BYTES("\x02\x02\x02\x81\x80\x00"), UNWEIGHED, FLORUMEJA_PADDED, FLORUMEJA_IN_TASK, 3, 3},
    {"3: a mark of 16,385", BYTES("\x02\x02\x02\x81\x80\x01"), UNWEIGHED, FLORUMEJA_RANGE, FLORUMEJA_IN_TASK, 3, 3},
    {"13: a goal value that does not end", BYTES("\x02\x02\x02\x00\x01\x00\x00\x81\x81\x81\x01"), UNWEIGHED, FLORUMEJA_ENDLESS, FLORUMEJA_IN_TASK, 7, 3},
    {"1 in the weights of an order", ORDER, BYTES(""), FLORUMEJA_ENDS, FLORUMEJA_IN_WEIGHTS, 0, 0},
    {"3 in the weights of an order: feature 15", ORDER, BYTES("\x02\x0e\x0f"), FLORUMEJA_RANGE, FLORUMEJA_IN_WEIGHTS, 2, 1},
    {"4 in the weights of an order", ORDER, BYTES("\x02\x0e\x0e"), FLORUMEJA_UNORDERED, FLORUMEJA_IN_WEIGHTS, 2, 1},
    {"12 in the weights of an order", ORDER, BYTES("\x80\x00"), FLORUMEJA_PADDED, FLORUMEJA_IN_WEIGHTS, 0, 2},
    {"3 in the weights of an order: feature 16,384", ORDER, BYTES("\x01\x80\x80\x01"), FLORUMEJA_RANGE, FLORUMEJA_IN_WEIGHTS, 1, 3},
    {"13 in the weights of an order", ORDER, BYTES("\x01\xff\xff\xff"), FLORUMEJA_ENDLESS, FLORUMEJA_IN_WEIGHTS, 1, 3},
};

/* Rows, columns, the start's labels, the goal's. Four by four, start and goal alike, without the last label, which is 15. */
#define SIXTEEN "\x04\x04" "\x00\x01\x02\x03\x04\x05\x06\x07\x08\x09\x0a\x0b\x0c\x0d\x0e\x0f" "\x00\x01\x02\x03\x04\x05\x06\x07\x08\x09\x0a\x0b\x0c\x0d\x0e"

static const struct shown shown_bays[] = {
    {"nothing at fault in a bay", BYTES("\x01\x02\x00\x01\x01\x00"), BYTES(""), 0, FLORUMEJA_IN_TASK, 0, 0},
    {"1: a bay of no bytes", BYTES(""), BYTES(""), FLORUMEJA_ENDS, FLORUMEJA_IN_TASK, 0, 0},
    {"1: a label is missing", BYTES("\x01\x02\x00\x01\x01"), BYTES(""), FLORUMEJA_ENDS, FLORUMEJA_IN_TASK, 5, 0},
    {"1: a bay ends inside a label", BYTES("\x01\x02\x00\x81"), BYTES(""), FLORUMEJA_ENDS, FLORUMEJA_IN_TASK, 3, 1},
    {"2: ten rows", BYTES("\x0a\x01"), BYTES(""), FLORUMEJA_LIMIT, FLORUMEJA_IN_TASK, 0, 1},
    {"2: 129 columns, in two bytes", BYTES("\x01\x81\x01"), BYTES(""), FLORUMEJA_LIMIT, FLORUMEJA_IN_TASK, 1, 2},
    {"2: one slot, at the columns", BYTES("\x01\x01\x00"), BYTES(""), FLORUMEJA_LIMIT, FLORUMEJA_IN_TASK, 1, 1},
    {"2: ten columns", BYTES("\x01\x0a\x00"), BYTES(""), FLORUMEJA_LIMIT, FLORUMEJA_IN_TASK, 1, 1},
    {"2: 16,386 columns, in three bytes", BYTES("\x01\x82\x80\x01"), BYTES(""), FLORUMEJA_LIMIT, FLORUMEJA_IN_TASK, 1, 3},
    {"2: eighteen slots, at the columns", BYTES("\x02\x09\x00"), BYTES(""), FLORUMEJA_LIMIT, FLORUMEJA_IN_TASK, 1, 1},
    {"1: ten slots are taken", BYTES("\x05\x02"), BYTES(""), FLORUMEJA_ENDS, FLORUMEJA_IN_TASK, 2, 0},
    {"1: sixteen slots are taken", BYTES("\x02\x08"), BYTES(""), FLORUMEJA_ENDS, FLORUMEJA_IN_TASK, 2, 0},
    {"nothing at fault in a bay of sixteen", BYTES(SIXTEEN "\x0f"), BYTES(""), 0, FLORUMEJA_IN_TASK, 0, 0},
    {"1: the last label of sixteen is missing", BYTES(SIXTEEN), BYTES(""), FLORUMEJA_ENDS, FLORUMEJA_IN_TASK, 33, 0},
    {"3: the last label of sixteen is 16", BYTES(SIXTEEN "\x10"), BYTES(""), FLORUMEJA_RANGE, FLORUMEJA_IN_TASK, 33, 1},
    {"5: a label too many in a bay of sixteen", BYTES(SIXTEEN "\x0f\x00"), BYTES(""), FLORUMEJA_LEFT_OVER, FLORUMEJA_IN_TASK, 0, 0},
    {"11: the last label of sixteen is another one's", BYTES(SIXTEEN "\x0e"), BYTES(""), FLORUMEJA_UNEQUAL, FLORUMEJA_IN_TASK, 0, 0},
    {"3: label 2 of two", BYTES("\x01\x02\x00\x02"), BYTES(""), FLORUMEJA_RANGE, FLORUMEJA_IN_TASK, 3, 1},
    {"5: a label too many", BYTES("\x01\x02\x00\x01\x01\x00\x00"), BYTES(""), FLORUMEJA_LEFT_OVER, FLORUMEJA_IN_TASK, 0, 0},
    {"10: two gaps", BYTES("\x01\x02\x00\x00\x01\x00"), BYTES(""), FLORUMEJA_GAPS, FLORUMEJA_IN_TASK, 0, 0},
    {"11: unequal lots", BYTES("\x01\x03\x00\x01\x01\x00\x01\x02"), BYTES(""), FLORUMEJA_UNEQUAL, FLORUMEJA_IN_TASK, 0, 0},
    {"12: rows in two bytes where one is enough", BYTES("\x81\x00\x02"), BYTES(""), FLORUMEJA_PADDED, FLORUMEJA_IN_TASK, 0, 2},
    {"12: rows in three bytes", BYTES("\x81\x80\x00\x02"), BYTES(""), FLORUMEJA_PADDED, FLORUMEJA_IN_TASK, 0, 3},
    {"1: columns end before their third byte", BYTES("\x01\x82\x80"), BYTES(""), FLORUMEJA_ENDS, FLORUMEJA_IN_TASK, 1, 2},
    {"13: columns that do not end", BYTES("\x01\x82\x80\x80\x01"), BYTES(""), FLORUMEJA_ENDLESS, FLORUMEJA_IN_TASK, 1, 3},
};

enum kind { TASKS, NEW_WEIGHTS, PARTIALS, BAYS };

/* What a call answers that judges the files. */
static uint64_t judged(enum kind kind, const uint8_t *first, size_t first_length, const uint8_t *weights, size_t weights_length) {
    static uint8_t room[FLORUMEJA_BAY_BYTES];
    switch (kind) {
    case TASKS: return florumeja_check(first, first_length, weights, weights_length);
    case NEW_WEIGHTS: return florumeja_check_new(first, first_length, weights, weights_length);
    case PARTIALS: return florumeja_check_partial(first, first_length, weights, weights_length);
    default: return florumeja_build(first, first_length, room, sizeof room);
    }
}

static uint64_t displayed(enum kind kind, const uint8_t *first, size_t first_length, const uint8_t *weights, size_t weights_length, uint64_t *room, size_t words) {
    switch (kind) {
    case TASKS: return florumeja_display(first, first_length, weights, weights_length, room, words);
    case NEW_WEIGHTS: return florumeja_display_new(first, first_length, weights, weights_length, room, words);
    case PARTIALS: return florumeja_display_partial(first, first_length, weights, weights_length, room, words);
    default: return florumeja_display_bay(first, first_length, room, words);
    }
}

/* Shows each of some files, in rooms of none to three words with a word in front and words behind that stay. */
static void displays_of(enum kind kind, const struct shown *files, size_t count) {
    const uint64_t nines[] = {9, 9, 9, 9, 9};
    uint8_t first[40], weights[8];
    size_t i, words;
    for (i = 0; i < count; i++) {
        const struct shown *file = &files[i];
        uint64_t answer, part[] = {9, 9, 9, 9, 9};
        part[1] = file->begins;
        part[2] = file->many;
        memcpy(first, file->first, file->first_length);
        memcpy(weights, file->weights, file->weights_length);
        answer = judged(kind, first, file->first_length, weights, file->weights_length);
        expect_of(file->number == 0 ? florumeja_case(answer) != FLORUMEJA_REFUSED : refused(answer, file->number), file->what, ", judged");
        for (words = 0; words <= 3; words++) {
            uint64_t room[] = {9, 9, 9, 9, 9};
            answer = displayed(kind, first, file->first_length, weights, file->weights_length, room + 1, words);
            if (words < FLORUMEJA_PLACE_WORDS) {
                expect_of(refused(answer, FLORUMEJA_SMALL) && SAME(room, nines), file->what, words == 0 ? ", no room" : ", a word of room");
            } else {
                expect_of(is(answer, file->holder, 0) && SAME(room, part), file->what, words == 2 ? ", shown" : ", shown with a word to spare");
            }
        }
        expect_of(memcmp(first, file->first, file->first_length) == 0 && memcmp(weights, file->weights, file->weights_length) == 0, file->what, ", files as they came");
    }
}

static void displays(void) {
    displays_of(TASKS, shown_tasks, COUNT(shown_tasks));
    displays_of(NEW_WEIGHTS, shown_new, COUNT(shown_new));
    displays_of(PARTIALS, shown_partials, COUNT(shown_partials));
    displays_of(BAYS, shown_bays, COUNT(shown_bays));
}

/* A size of a task, a mark of an order and the columns of a bay that are badly formed are so for every call that reads the file. */
static void badly_formed(void) {
    static const uint8_t tasks[][4] = {{1, 0x82, 0, 9}, {1, 0x82, 0x80, 0}, {1, 0x82, 0x82, 0x82}}, orders[][5] = {{1, 2, 0x81, 0, 9}, {1, 2, 0x81, 0x80, 0}, {1, 2, 0x81, 0x81, 0x81}};
    static const uint8_t bays[][4] = {{1, 0x82, 0, 9}, {1, 0x82, 0x80, 0}, {1, 0x82, 0x82, 0x82}};
    static const uint32_t numbers[] = {FLORUMEJA_PADDED, FLORUMEJA_PADDED, FLORUMEJA_ENDLESS};
    static const char *const names[] = {"refused 12 at its second byte", "refused 12 at its third byte", "refused 13"};
    static const char *const lines[] = {"refused 12 at 1\n", "refused 12 at 1\n", "refused 13 at 1\n"};
    const uint8_t marks[] = {1}, none[] = {0};
    uint8_t bytes[64];
    uint64_t words[64];
    size_t i;
    for (i = 0; i < COUNT(numbers); i++) {
        const uint8_t *task = tasks[i], *order = orders[i], *bay = bays[i];
        const char *name = names[i];
        uint32_t number = numbers[i];
        expect_of(refused(florumeja_check(task, 4, none, 1), number), "check: ", name);
        expect_of(refused(florumeja_open(task, 4, words, 64), number), "open: ", name);
        expect_of(is(florumeja_line(task, 4, bytes, 64), FLORUMEJA_DONE, 16) && memcmp(bytes, lines[i], 16) == 0, "line: ", name);
        expect_of(refused(florumeja_silence(task, 4, marks, 1, bytes, 64), number), "silence: ", name);
        expect_of(refused(florumeja_mend(task, 4, bytes, 64), number), "mend: ", name);
        expect_of(refused(florumeja_dropped(task, 4, bytes, 64), number), "dropped: ", name);
        expect_of(refused(florumeja_pair_fault(task, 4, words, 64), number), "pair_fault: ", name);
        expect_of(refused(florumeja_open_partial(order, 5, words, 64), number), "open_partial: ", name);
        expect_of(refused(florumeja_check_partial(order, 5, none, 1), number), "check_partial: ", name);
        expect_of(refused(florumeja_build_partial(order, 5, bytes, 64), number), "build_partial: ", name);
        expect_of(refused(florumeja_build_partial_lean(order, 5, bytes, 64), number), "build_partial_lean: ", name);
        expect_of(refused(florumeja_build(bay, 4, bytes, 64), number), "build: ", name);
    }
}

/* An order with one silent variable of one value and so many operators that do nothing; answers its length. */
static size_t still_order(uint8_t *order, size_t count) {
    static const uint8_t head[] = {1, 1, 0, 0, 0}, still[] = {1, 0, 0, 0};
    uint8_t *at = put(order + sizeof head, count);
    size_t i;
    memcpy(order, head, sizeof head);
    for (i = 0; i < count; i++, at += 4) memcpy(at, still, 4);
    return (size_t)(at - order);
}

/* With the one that forgets, as many operators as a file can count are one too many. That is judged after 5, so a byte left over comes first, and neither has a
 * place. With one less the order is taken, and no weights leave its ends alike. */
static void too_many_operators(void) {
    static uint8_t order[8 + MOST_COUNTED * 4 + 1];
    const uint8_t none[] = {0};
    const uint64_t nowhere[] = {0, 0, 9};
    uint64_t room[] = {9, 9, 9};
    size_t length = still_order(order, MOST_COUNTED - 1);
    expect(is(florumeja_check_partial(order, length, none, 1), FLORUMEJA_ENDS_ALIKE, 0), "2,097,151 operators are taken");
    length = still_order(order, MOST_COUNTED);
    expect(length == sizeof order - 1, "an order with as many operators as a file can count");
    expect(refused(florumeja_check_partial(order, length, none, 1), FLORUMEJA_LIMIT), "2,097,152 operators: refused 2");
    expect(is(florumeja_display_partial(order, length, none, 0, room, 2), FLORUMEJA_IN_TASK, 0) && SAME(room, nowhere), "a 2 that is judged after 5 has no place");
    order[length] = 0;
    expect(refused(florumeja_check_partial(order, length + 1, none, 1), FLORUMEJA_LEFT_OVER), "and a byte left over: refused 5");
}

/* 16,383 operators and the one that forgets: the count takes a third byte. */
static void third_byte_of_a_count(void) {
    static uint8_t order[7 + 16383 * 4], room[sizeof order + FLORUMEJA_BUILT_MORE];
    static const uint8_t head[] = {1, 2, 0, 1, 0, 0x80, 0x80, 1, 1, 0, 0, 0}, tail[] = {1, 0, 0, 0, 1, 0, 0, 1, 7};
    size_t length = still_order(order, 16383);
    expect(length == sizeof order, "an order with 16,383 operators");
    memset(room, 7, sizeof room);
    expect(refused(florumeja_build_partial(order, length, room, 65543), FLORUMEJA_SMALL) && room[0] == 7, "65,543 bytes are too few for 16,384 operators");
    expect(is(florumeja_build_partial(order, length, room, sizeof room), FLORUMEJA_DONE, 8 + 4 * 16384), "16,384 operators are built");
    expect(SAME(room, head) && SAME(room + 8 + 4 * 16382, tail), "with their count in three bytes, and the one that forgets behind");
}

/* 64 variables of one value and operators of 64 entries, 193 bytes each, behind 1 + 3 * 64 + 1 + 3 bytes: of as many as a file can count so many stand there that the
 * next number is past place 99,999,999. It is badly formed, and its line is as long as any that occurs. */
static void farthest_place(void) {
    enum { FIRST = 1 + 3 * 64 + 1 + 3, MANY = 1 + 64 * 3, STAND = 518135, PLACE = FIRST + STAND * MANY };
    uint8_t *task = (uint8_t *)calloc(PLACE + 2, 1);
    const uint8_t none[] = {0};
    const uint64_t part[] = {PLACE, 2, 9};
    uint64_t words[] = {9, 9, 9};
    uint8_t room[FLORUMEJA_VERDICT_BYTES];
    size_t i, j;
    expect(task != NULL, "100 MB for a task");
    if (task == NULL) return;
    task[0] = 64;
    memset(task + 1, 1, 64);
    put(task + FIRST - 3, MOST_COUNTED);
    for (i = 0; i < STAND; i++) {
        task[FIRST + i * MANY] = 64;
        for (j = 0; j < 64; j++) task[FIRST + i * MANY + 1 + 3 * j] = (uint8_t)j;
    }
    task[PLACE] = 0x80;
    memset(room, 7, sizeof room);
    expect(is(florumeja_check_line(task, PLACE + 2, none, 1, room, sizeof room), FLORUMEJA_DONE, 32) && memcmp(room, "refused 12 at 100000252 in task\n\7", 33) == 0, "a number past 100,000,000 bytes");
    expect(is(florumeja_display(task, PLACE + 2, none, 1, words, 3), FLORUMEJA_IN_TASK, 0) && SAME(words, part), "that number is shown");
    free(task);
}

/* 64 variables of one value and 16,384 operators of 64 entries: all of them are read, and the ends are one state. */
static void longest_operators(void) {
    enum { FIRST = 1 + 3 * 64 + 1 + 3, MANY = 1 + 64 * 3, LENGTH = FIRST + 16384 * MANY };
    static uint8_t task[LENGTH];
    const uint8_t none[] = {0};
    size_t i, j;
    task[0] = 64;
    memset(task + 1, 1, 64);
    put(task + FIRST - 3, 16384);
    for (i = 0; i < 16384; i++) {
        task[FIRST + i * MANY] = 64;
        for (j = 0; j < 64; j++) task[FIRST + i * MANY + 1 + 3 * j] = (uint8_t)j;
    }
    expect(is(florumeja_check(task, LENGTH, none, 1), FLORUMEJA_ENDS_ALIKE, 0), "16,384 operators of 64 entries are taken");
    expect(refused(florumeja_check(task, LENGTH - 1, none, 1), FLORUMEJA_ENDS), "without the last byte: refused 1");
    task[LENGTH - 1] = 1;
    expect(refused(florumeja_check(task, LENGTH, none, 1), FLORUMEJA_RANGE), "with a last value that equals its size: refused 3");
}

/* The weights by which the fifteen puzzle is known to be impossible: where the gap is in the second or fourth row, if so asked, and each two pallets of which the
 * higher label comes first. A pallet that moves by a row passes three others. Answers the file's length. */
static size_t known_weights(uint8_t *weights, int with_rows) {
    uint8_t *at = put(weights, 120 * 105 + (with_rows ? 8 : 0));
    size_t slot, block, x, y;
    for (slot = 0; with_rows && slot < 16; slot++) {
        if (slot / 4 % 2 == 1) at = put(at, 16 * slot);
    }
    for (block = 0; block < 120; block++) {
        for (x = 2; x < 16; x++) {
            for (y = 1; y < x; y++) at = put(at, 256 + 256 * block + 16 * x + y);
        }
    }
    return (size_t)(at - weights);
}

/* The fifteen puzzle with 14 and 15 exchanged: 16 variables, 30,976 features in 484 words, so 1 + 3 * 16 + 484 * 30,977 words. Operators 0 to 14 move a pallet from slot 1
 * to slot 0, and 15 is the first that moves one by a row. */
static void fifteen(void) {
    static const uint8_t bay[] = {4, 4, 1, 2, 3, 4, 5, 6, 7, 8, 9, 10, 11, 12, 13, 14, 15, 0, 1, 2, 3, 4, 5, 6, 7, 8, 9, 10, 11, 12, 13, 15, 14, 0};
    static uint8_t task[FLORUMEJA_BAY_BYTES], weights[FLORUMEJA_WEIGHT_BYTES];
    const uint8_t marks[] = {1, 1, 1, 1, 1, 1, 1, 1, 1, 1, 1, 1, 1, 1, 1, 1};
    const size_t due = 14992917;
    uint64_t *words = (uint64_t *)malloc(due * sizeof *words), found[484];
    uint64_t answer;
    size_t length;
    expect(words != NULL, "120 MB for a workspace");
    if (words == NULL) return;
    expect(is(florumeja_build(bay, sizeof bay, task, sizeof task), FLORUMEJA_DONE, FLORUMEJA_BAY_BYTES), "the fifteen puzzle is built");
    length = known_weights(weights, 1);
    expect(is(florumeja_check(task, sizeof task, weights, length), FLORUMEJA_DONE, 0), "the fifteen puzzle: its known weights are accepted");
    length = known_weights(weights, 0);
    expect(is(florumeja_check(task, sizeof task, weights, length), FLORUMEJA_OPERATOR, 15), "without the gap's rows: operator 15");
    expect(refused(florumeja_open(task, sizeof task, words, due - 1), FLORUMEJA_SMALL), "a word too few for the fifteen puzzle");
    expect(is(florumeja_open(task, sizeof task, words, due), FLORUMEJA_DONE, (uint32_t)due), "the fifteen puzzle is opened");
    expect(refused(florumeja_find(words, due, found, 483), FLORUMEJA_SMALL), "483 words are too few for its weights");
    expect(is(florumeja_find(words, due, found, 484), FLORUMEJA_DONE, 0), "the fifteen puzzle is separated");
    answer = florumeja_weight_file(found, 484, weights, sizeof weights);
    expect(florumeja_case(answer) == FLORUMEJA_DONE, "what was found is a weight file");
    expect(is(florumeja_check(task, sizeof task, weights, florumeja_value(answer)), FLORUMEJA_DONE, 0), "what was found is accepted");
    expect(refused(florumeja_silence(task, sizeof task, marks, 16, weights, sizeof weights), FLORUMEJA_LIMIT), "it has no partial file: refused 2");
    free(words);
}

/* L's pairs 4 and 5 are 4 and a gap of one, which is written as 0. Sizes 54, 57, 57, 58 and 59 have the pairs 16,384 and 32,767, between which 16,382 features stand. */
static const uint8_t new_b[] = {0, 2, 2, 2, 0, 0, 0, 1, 0, 4, 2, 0, 0, 1, 1, 0, 1, 2, 0, 0, 1, 1, 1, 0, 2, 0, 1, 0, 1, 1, 0, 2, 0, 1, 0, 1, 0, 1};
static const uint8_t new_g[] = {0, 2, 2, 2, 0, 0, 1, 0, 1, 7, 1, 1, 0, 0, 1};
static const uint8_t new_h[] = {0, 2, 2, 2, 1, 1, 0, 0, 1, 7, 0};
static const uint8_t new_l[] = {0, 2, 2, 2, 1, 0, 0, 0, 2, 4, 0, 1, 1, 0, 0, 1};
static const uint8_t old_far[] = {FULL_SIZES, 0, 0, 0, 0, 0, 1, 0, 0, 0, 0, 2, 0x80, 0x80, 1, 0xff, 0xff, 1, 0};
static const uint8_t new_far[] = {0, FULL_SIZES, 0, 0, 0, 0, 0, 1, 0, 0, 0, 0, 2, 0x80, 0x80, 1, 0xfe, 0x7f, 0};

/* Old to new and back, and new to old and back, into rooms that have not a byte too many; one byte less is refused 8. */
static void converts(const char *what, const uint8_t *old_file, size_t old_length, const uint8_t *new_file, size_t new_length) {
    uint8_t room[64];
    memset(room, 7, sizeof room);
    expect_of(refused(florumeja_to_new(old_file, old_length, room, new_length - 1), FLORUMEJA_SMALL) && room[0] == 7, what, ", a byte too few for the new file");
    expect_of(is(florumeja_to_new(old_file, old_length, room, new_length), FLORUMEJA_DONE, (uint32_t)new_length) && memcmp(room, new_file, new_length) == 0 && room[new_length] == 7,
              what, " as a new file");
    memset(room, 7, sizeof room);
    expect_of(refused(florumeja_to_old(new_file, new_length, room, old_length - 1), FLORUMEJA_SMALL) && room[0] == 7, what, ", a byte too few for the old file");
    expect_of(is(florumeja_to_old(new_file, new_length, room, old_length), FLORUMEJA_DONE, (uint32_t)old_length) && memcmp(room, old_file, old_length) == 0 && room[old_length] == 7,
              what, " as an old file");
    expect_of(new_length <= old_length + FLORUMEJA_NEW_MORE && old_length <= new_length + FLORUMEJA_OLD_MORE, what, ", no longer than is said");
    expect_of(refused(florumeja_to_new(new_file, new_length, room, 0), FLORUMEJA_LIMIT), what, ", a new file where an old one is due: refused 2");
    expect_of(refused(florumeja_to_old(old_file, old_length, room, 0), FLORUMEJA_RANGE), what, ", an old file where a new one is due: refused 3");
}

/* A badly formed first number is that, whichever kind is due; and all of a task is judged before the room. */
static void conversions(void) {
    static const uint8_t padded[] = {0x80, 0}, endless[] = {0x80, 0x80, 0x80}, none[] = {0, 0}, twice[] = {2, 2, 2, 0, 0, 0, 1, 2, 5, 5, 0}, past[] = {0, 2, 2, 2, 0, 0, 0, 1, 2, 5, 2, 0};
    const uint8_t sevens[] = {7, 7, 7, 7};
    uint8_t room[4];
    converts("B", task_b, sizeof task_b, new_b, sizeof new_b);
    converts("L", task_l, sizeof task_l, new_l, sizeof new_l);
    converts("pairs of three bytes", old_far, sizeof old_far, new_far, sizeof new_far);
    memset(room, 7, sizeof room);
    expect(refused(florumeja_to_new(task_l, 0, room, 4), FLORUMEJA_ENDS) && refused(florumeja_to_old(new_l, 0, room, 4), FLORUMEJA_ENDS), "no file to convert: refused 1");
    expect(refused(florumeja_to_old(new_l, 1, room, 4), FLORUMEJA_ENDS), "a new file of its 0 alone: refused 1");
    expect(refused(florumeja_to_new(padded, 2, room, 4), FLORUMEJA_PADDED) && refused(florumeja_to_old(padded, 2, room, 4), FLORUMEJA_PADDED), "0 in two bytes: refused 12");
    expect(refused(florumeja_to_new(endless, 3, room, 4), FLORUMEJA_ENDLESS) && refused(florumeja_to_old(endless, 3, room, 4), FLORUMEJA_ENDLESS), "a first number without end: refused 13");
    expect(refused(florumeja_to_old(none, 2, room, 0), FLORUMEJA_LIMIT), "a new file without a variable: refused 2");
    expect(refused(florumeja_to_old(past, sizeof past, room, 0), FLORUMEJA_RANGE), "a gap past the last feature: refused 3");
    expect(refused(florumeja_to_new(twice, sizeof twice, room, 0), FLORUMEJA_UNORDERED), "a pair twice in an old file: refused 4");
    expect(refused(florumeja_to_new(task_l, sizeof task_l - 1, room, 0), FLORUMEJA_ENDS) && refused(florumeja_to_old(new_l, sizeof new_l - 1, room, 0), FLORUMEJA_ENDS), "a byte short: refused 1");
    expect(refused(florumeja_to_new(task_h, sizeof task_h, room, 0), FLORUMEJA_HELD) && refused(florumeja_to_old(new_h, sizeof new_h, room, 0), FLORUMEJA_HELD), "H: refused 6 before 8");
    expect(refused(florumeja_to_new(task_g, sizeof task_g, room, 0), FLORUMEJA_UNCLOSED) && refused(florumeja_to_old(new_g, sizeof new_g, room, 0), FLORUMEJA_UNCLOSED), "G: refused 7 before 8");
    expect(SAME(room, sevens), "a file that is refused leaves the room");
}

/* {0,2} is 0 and a gap of two, which is written as 1. Both kinds of B have the same weights. */
static void weight_conversions(void) {
    static const uint8_t old_both[] = {2, 0, 2}, new_both[] = {0, 2, 0, 1}, old_none[] = {0}, new_none[] = {0, 0}, fall[] = {2, 2, 0}, past[] = {0, 2, 0, 7};
    const uint8_t sevens[] = {7, 7, 7, 7, 7};
    const uint8_t *tasks[] = {task_b, new_b};
    const size_t lengths[] = {sizeof task_b, sizeof new_b};
    uint8_t room[5];
    size_t i;
    for (i = 0; i < COUNT(tasks); i++) {
        const char *kind = i == 0 ? ", beside an old task" : ", beside a new task";
        memset(room, 7, sizeof room);
        expect_of(refused(florumeja_weights_to_new(tasks[i], lengths[i], old_both, 3, room, 3), FLORUMEJA_SMALL), "3 bytes are too few for new weights", kind);
        expect_of(refused(florumeja_weights_to_old(tasks[i], lengths[i], new_both, 4, room, 2), FLORUMEJA_SMALL), "2 bytes are too few for old weights", kind);
        expect_of(refused(florumeja_weights_to_old(tasks[i], lengths[i], old_both, 3, room, 0), FLORUMEJA_RANGE), "old weights where new ones are due: refused 3", kind);
        expect_of(refused(florumeja_weights_to_new(tasks[i], lengths[i], new_both, 4, room, 0), FLORUMEJA_LEFT_OVER), "new weights where old ones are due: refused 5", kind);
        expect_of(refused(florumeja_weights_to_new(tasks[i], lengths[i], fall, 3, room, 0), FLORUMEJA_UNORDERED), "weights that fall: refused 4", kind);
        expect_of(refused(florumeja_weights_to_old(tasks[i], lengths[i], past, 4, room, 0), FLORUMEJA_RANGE) && SAME(room, sevens), "a gap past the last weight: refused 3", kind);
        expect_of(is(florumeja_weights_to_new(tasks[i], lengths[i], old_both, 3, room, 4), FLORUMEJA_DONE, 4) && SAME(room, new_both) && room[4] == 7, "{0,2} as new weights", kind);
        memset(room, 7, sizeof room);
        expect_of(is(florumeja_weights_to_old(tasks[i], lengths[i], new_both, 4, room, 5), FLORUMEJA_DONE, 3) && SAME(room, old_both) && room[3] == 7, "{0,2} as old weights", kind);
        expect_of(is(florumeja_weights_to_new(tasks[i], lengths[i], old_none, 1, room, 5), FLORUMEJA_DONE, 2) && SAME(room, new_none), "no weights as new ones", kind);
        expect_of(is(florumeja_weights_to_old(tasks[i], lengths[i], new_none, 2, room, 5), FLORUMEJA_DONE, 1) && SAME(room, old_none), "no weights as old ones", kind);
    }
    expect(refused(florumeja_weights_to_new(task_g, sizeof task_g, fall, 3, room, 0), FLORUMEJA_UNCLOSED), "the task is judged before old weights: refused 7");
    expect(refused(florumeja_weights_to_old(new_h, sizeof new_h, old_both, 3, room, 0), FLORUMEJA_HELD), "the task is judged before new weights: refused 6");
}

/* All of 32,768 features: in the old file as many bytes as any, in the new one a byte for each. */
static void longest_weights(void) {
    static const uint8_t task[] = {FULL_SIZES, 0, 0, 0, 0, 0, 1, 0, 0, 0, 0, 0, 0};
    static uint64_t full[512];
    static uint8_t old_file[FLORUMEJA_WEIGHT_BYTES], new_file[FLORUMEJA_NEW_WEIGHT_BYTES], back[FLORUMEJA_NEW_WEIGHT_BYTES + FLORUMEJA_OLD_MORE];
    size_t i, others = 0;
    memset(full, 255, sizeof full);
    expect(is(florumeja_weight_file(full, 512, old_file, sizeof old_file), FLORUMEJA_DONE, sizeof old_file), "an old file of 32,768 weights");
    expect(refused(florumeja_weights_to_new(task, sizeof task, old_file, sizeof old_file, new_file, sizeof new_file - 1), FLORUMEJA_SMALL), "a byte too few for 32,768 gaps");
    expect(is(florumeja_weights_to_new(task, sizeof task, old_file, sizeof old_file, new_file, sizeof new_file), FLORUMEJA_DONE, sizeof new_file), "a new file of 32,768 weights");
    for (i = 4; i < sizeof new_file; i++) others += new_file[i] != 0;
    expect(memcmp(new_file, "\x00\x80\x80\x02", 4) == 0 && others == 0, "which is 0, the count and zeros");
    expect(is(florumeja_weights_to_old(task, sizeof task, new_file, sizeof new_file, back, sizeof back), FLORUMEJA_DONE, sizeof old_file) && SAME(back, old_file), "and leads back");
    expect(sizeof back == sizeof old_file, "as much longer as is said");
}

/* {0,2} separates B, {0} leaves its ends alike and {2} breaks at operator 0. The orders are those of partial_checks. */
static void new_checks(void) {
    static const uint8_t held[] = {2, 2, 2, 0, 1, 1, 0, 1, 1, 7, 0}, empty[] = {0};
    const uint8_t both[] = {0, 2, 0, 1}, first[] = {0, 1, 0}, third[] = {0, 1, 2}, past[] = {0, 2, 0, 7}, old[] = {2, 0, 2}, one[] = {0, 1, 1}, three[] = {0, 1, 3}, built_past[] = {0, 1, 15};
    expect(is(florumeja_check_new(task_b, sizeof task_b, both, sizeof both), FLORUMEJA_DONE, 0), "B with new {0,2} is accepted");
    expect(is(florumeja_check_new(new_b, sizeof new_b, both, sizeof both), FLORUMEJA_DONE, 0), "and so is the new B");
    expect(is(florumeja_check(new_b, sizeof new_b, old, sizeof old), FLORUMEJA_DONE, 0), "the new B with old {0,2} too");
    expect(is(florumeja_check_new(task_b, sizeof task_b, first, sizeof first), FLORUMEJA_ENDS_ALIKE, 0), "J with new weights: ends alike");
    expect(is(florumeja_check_new(new_b, sizeof new_b, third, sizeof third), FLORUMEJA_OPERATOR, 0), "K with new weights: operator 0");
    expect(refused(florumeja_check_new(task_b, sizeof task_b, past, sizeof past), FLORUMEJA_RANGE), "a gap to feature 8 of 8: refused 3");
    expect(refused(florumeja_check_new(task_b, sizeof task_b, old, sizeof old), FLORUMEJA_RANGE), "old weights for check_new: refused 3");
    expect(refused(florumeja_check(task_b, sizeof task_b, both, sizeof both), FLORUMEJA_LEFT_OVER), "new weights for check: refused 5");
    expect(refused(florumeja_check_new(new_g, sizeof new_g, old, sizeof old), FLORUMEJA_UNCLOSED), "the new G: refused 7 before its weights");
    expect(is(florumeja_check_partial_new(held, sizeof held, one, sizeof one), FLORUMEJA_DONE, 0), "an order with new weights is accepted");
    expect(is(florumeja_check_partial_new(partial, sizeof partial, one, sizeof one), FLORUMEJA_ENDS_ALIKE, 0), "an order with new weights: ends alike");
    expect(is(florumeja_check_partial_new(partial, sizeof partial, three, sizeof three), FLORUMEJA_OPERATOR, 1), "an order with new weights: operator 1");
    expect(refused(florumeja_check_partial_new(partial, sizeof partial, built_past, sizeof built_past), FLORUMEJA_RANGE), "new feature 15 of 15: refused 3");
    expect(refused(florumeja_check_partial_new(partial, sizeof partial, old, sizeof old), FLORUMEJA_RANGE), "old weights for an order: refused 3");
    expect(refused(florumeja_check_partial_new(empty, sizeof empty, one, sizeof one), FLORUMEJA_LIMIT), "an order has one kind, and 0 is no count of variables: refused 2");
}

/* The calls that read a task, on both kinds of L, G and H. The new chain is 5 and a gap of two, and the new `holding` 4 and gaps of two and one. */
static void either_kind(void) {
    static const uint8_t new_chain[] = {0, 2, 2, 2, 0, 0, 0, 1, 2, 5, 1, 2, 1, 0, 1, 0, 2, 0, 1, 1, 1, 0, 1};
    static const uint8_t new_unpaired[] = {0, 2, 2, 2, 0, 0, 0, 1, 0, 2, 1, 0, 1, 0, 2, 0, 1, 1, 1, 0, 1, 7};
    static const uint8_t new_holding[] = {0, 2, 2, 2, 0, 0, 0, 1, 3, 4, 1, 0, 1, 2, 0, 0, 1, 1, 0, 1};
    static const uint8_t new_freed[] = {0, 2, 2, 2, 0, 0, 0, 1, 1, 6, 1, 2, 0, 0, 1, 1, 0, 1, 7};
    const uint8_t marks[] = {0, 1}, first[] = {1, 0}, seventh[] = {1, 7}, both[] = {2, 5, 7};
    uint64_t words[16], other_words[16], pair[] = {9, 9};
    const uint64_t held_h[] = {7, 9}, unclosed_g[] = {7, 0};
    uint8_t room[32], other[32];
    expect(is(florumeja_open(task_l, sizeof task_l, words, 16), FLORUMEJA_DONE, 16) && is(florumeja_open(new_l, sizeof new_l, other_words, 16), FLORUMEJA_DONE, 16)
               && SAME(words, other_words), "both kinds of L are opened as the same workspace");
    expect(is(florumeja_line(new_l, sizeof new_l, room, sizeof room), FLORUMEJA_DONE, 14) && memcmp(room, "separated 1 0\n", 14) == 0, "the new L's line");
    expect(is(florumeja_line(new_g, sizeof new_g, room, sizeof room), FLORUMEJA_DONE, 10) && memcmp(room, "refused 7\n", 10) == 0, "the new G's line");
    expect(is(florumeja_check_line(new_l, sizeof new_l, first, sizeof first, room, sizeof room), FLORUMEJA_DONE, 9) && memcmp(room, "accepted\n", 9) == 0, "the new L's line for a checker");
    memset(room, 7, sizeof room);
    memset(other, 7, sizeof other);
    expect(is(florumeja_silence(task_l, sizeof task_l, marks, 2, room, sizeof room), FLORUMEJA_DONE, 16) && is(florumeja_silence(new_l, sizeof new_l, marks, 2, other, sizeof other), FLORUMEJA_DONE, 16)
               && SAME(room, other), "both kinds of L have the same partial file");
    memset(room, 7, sizeof room);
    expect(is(florumeja_mend(new_l, sizeof new_l, room, sizeof new_l), FLORUMEJA_DONE, 16) && SAME(room, new_l), "the new L comes back");
    memset(room, 7, sizeof room);
    expect(is(florumeja_mend(new_chain, sizeof new_chain, room, sizeof room), FLORUMEJA_DONE, 21) && SAME(room, new_unpaired), "the new chain mended is a new file");
    memset(room, 7, sizeof room);
    expect(is(florumeja_mend(new_holding, sizeof new_holding, room, sizeof room), FLORUMEJA_DONE, 18) && SAME(room, new_freed), "a pair behind a dropped one is written anew");
    expect(is(florumeja_dropped(new_g, sizeof new_g, room, 2), FLORUMEJA_DONE, 2) && SAME(room, seventh), "the new G drops 7");
    expect(is(florumeja_dropped(new_chain, sizeof new_chain, room, 3), FLORUMEJA_DONE, 3) && SAME(room, both), "5 and 7 of the new chain, as they are");
    expect(is(florumeja_pair_fault(new_h, sizeof new_h, pair, 2), FLORUMEJA_HELD_PAIR, 0) && SAME(pair, held_h), "the new H: the start holds 7");
    expect(is(florumeja_pair_fault(new_g, sizeof new_g, pair, 2), FLORUMEJA_UNCLOSED_PAIR, 0) && SAME(pair, unclosed_g), "the new G: 7 and operator 0");
}

/* With the word `brief` those are left out whose files are as long as any, or whose bay is as large; the calls that they make stand in the others too. */
int main(int count, char **words) {
    int brief = count > 1 && strcmp(words[1], "brief") == 0;
    check_calls();
    check_lines();
    open_and_find();
    edits();
    edits_beside_pairs();
    bay_sizes();
    builds_and_lines();
    weight_files();
    most_features();
    partial_builds();
    partial_workspaces();
    partial_checks();
    silences();
    built_lengths();
    mends();
    drops();
    pair_faults();
    displays();
    badly_formed();
    third_byte_of_a_count();
    longest_operators();
    conversions();
    weight_conversions();
    longest_weights();
    new_checks();
    either_kind();
    if (!brief) {
        last_operator();
        too_many_operators();
        farthest_place();
        fifteen();
    }
    printf("%d passed, %d failed\n", passed, failed);
    return failed != 0;
}
