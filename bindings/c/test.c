/* The header and the library together: the paper's eleven cases, trials, refusals, damaged states. */
#include "pirozhkan.h"
#include <stdio.h>
#include <stdlib.h>
#include <string.h>

#define W PIROZHKAN_WORDS

static unsigned long checks;

static void expect(bool yes, const char *what, int line) {
    checks++;
    if (!yes) {
        fprintf(stderr, "test.c:%d: %s\n", line, what);
        exit(1);
    }
}

#define EXPECT(x) expect((x), #x, __LINE__)

static uint64_t state[W + 8];

static void add(uint32_t id, int32_t min, int32_t max) { EXPECT(pirozhkan_add_variable(state, W, id, min, max) == 0); }

static bool pair_is(uint64_t code, bool changed, bool consistent) {
    pirozhkan_changed_consistent pair = pirozhkan_pair(code);
    return pair.refused == 0 && pair.changed == changed && pair.consistent == consistent;
}

static bool holds(uint32_t id, size_t n, const int32_t *values) {
    int32_t cells[128];
    pirozhkan_count counted = pirozhkan_counted(pirozhkan_get_domain_values(state, W, id, cells, 128));
    return counted.refused == 0 && counted.count == n && memcmp(cells, values, n * sizeof *values) == 0;
}

static bool holds_range(uint32_t id, int32_t min, int32_t max) {
    int32_t values[128];
    size_t n = 0;
    for (int32_t v = min; v <= max; v++) values[n++] = v;
    return holds(id, n, values);
}

#define BIT PIROZHKAN_BIT_WORDS

/* Bit domains, 1 to 3, with a word lent past the domain's. */
static void bit_cases(void) {
    uint64_t bits[BIT + 1] = {7, 7, 7, 7};
    int32_t cells[129];
    uint8_t text[PIROZHKAN_BIT_TEXT];
    EXPECT(pirozhkan_bit_new(bits, BIT + 1, 0, 127) == 0);
    EXPECT(pirozhkan_counted(pirozhkan_bit_size(bits, BIT)).count == 128);
    EXPECT(pirozhkan_bit_remove_below(bits, BIT + 1, 64) == 0);
    EXPECT(pirozhkan_counted(pirozhkan_bit_size(bits, BIT)).count == 64);
    EXPECT(pirozhkan_refused(pirozhkan_bit_fixed_value(bits, BIT)) == PIROZHKAN_EMPTY);
    EXPECT(pirozhkan_bit_remove_above(bits, BIT + 1, 64) == 0);
    EXPECT(pirozhkan_found(pirozhkan_bit_fixed_value(bits, BIT)).value == 64);

    EXPECT(pirozhkan_bit_new(bits, BIT + 1, 0, 128) == 0);
    EXPECT(pirozhkan_bit_size(bits, BIT) == 0 && pirozhkan_refused(pirozhkan_bit_min(bits, BIT)) == PIROZHKAN_EMPTY);
    /* the universe is (1, 0) */
    EXPECT(bits[0] == UINT64_C(0x8000000080000001) && bits[1] == 0 && bits[2] == 0);

    const int32_t values[] = {9, -3, 9, 124};
    EXPECT(pirozhkan_bit_new_from_values(bits, BIT + 1, values, 4) == 0);
    EXPECT(pirozhkan_told(pirozhkan_bit_insert(bits, BIT + 1, 10)).is && !pirozhkan_told(pirozhkan_bit_insert(bits, BIT + 1, 10)).is);
    EXPECT(!pirozhkan_told(pirozhkan_bit_insert(bits, BIT + 1, 125)).is);
    EXPECT(pirozhkan_told(pirozhkan_bit_contains(bits, BIT, -3)).is && !pirozhkan_told(pirozhkan_bit_contains(bits, BIT, 0)).is);
    EXPECT(pirozhkan_found(pirozhkan_bit_min(bits, BIT)).value == -3 && pirozhkan_found(pirozhkan_bit_max(bits, BIT)).value == 124);
    cells[4] = 77;
    EXPECT(pirozhkan_counted(pirozhkan_bit_values(bits, BIT, cells, 129)).count == 4);
    EXPECT(cells[0] == -3 && cells[1] == 9 && cells[2] == 10 && cells[3] == 124 && cells[4] == 77);
    EXPECT(pirozhkan_bit_values(bits, BIT, cells, 3) == PIROZHKAN_NO_ROOM && cells[0] == -3);
    EXPECT(pirozhkan_counted(pirozhkan_bit_text(bits, BIT, text, sizeof text)).count == 13 && memcmp(text, "[-3|9,10,124]", 13) == 0);
    text[0] = 'x';
    EXPECT(pirozhkan_bit_text(bits, BIT, text, 12) == PIROZHKAN_NO_ROOM && text[0] == 'x');
    EXPECT(pirozhkan_told(pirozhkan_bit_remove(bits, BIT + 1, 9)).is && !pirozhkan_told(pirozhkan_bit_remove(bits, BIT + 1, 9)).is);
    EXPECT(pirozhkan_bit_remove_all_but(bits, BIT + 1, 10) == 0 && pirozhkan_found(pirozhkan_bit_fixed_value(bits, BIT)).value == 10);
    EXPECT(pirozhkan_bit_remove_all(bits, BIT + 1) == 0 && pirozhkan_bit_size(bits, BIT) == 0);
    EXPECT(pirozhkan_bit_new_empty(bits, BIT + 1, 5, 4) == 0 && pirozhkan_told(pirozhkan_bit_insert(bits, BIT, 4)).is);
    EXPECT(bits[BIT] == 7);
    uint64_t before[BIT];
    memcpy(before, bits, sizeof before);
    EXPECT(pirozhkan_bit_new(bits, BIT - 1, 0, 9) == PIROZHKAN_NO_ROOM && pirozhkan_bit_insert(bits, 0, 5) == PIROZHKAN_NO_ROOM);
    EXPECT(pirozhkan_bit_size(bits, 2) == PIROZHKAN_NO_ROOM && memcmp(before, bits, sizeof before) == 0);
    /* every bit of the words changed in turn: Broken and left as it was, or a domain */
    unsigned domains = 0, broken = 0;
    for (unsigned at = 0; at < 64 * BIT; at++) {
        memcpy(bits, before, sizeof before);
        bits[at / 64] ^= UINT64_C(1) << at % 64;
        uint64_t damaged[BIT];
        memcpy(damaged, bits, sizeof damaged);
        unsigned asked = pirozhkan_refused(pirozhkan_bit_size(bits, BIT));
        EXPECT(pirozhkan_refused(pirozhkan_bit_insert(bits, BIT, 5)) == asked);
        EXPECT(pirozhkan_refused(pirozhkan_bit_remove_below(bits, BIT, 5)) == asked && asked <= PIROZHKAN_BROKEN);
        if (asked == PIROZHKAN_BROKEN) broken++, EXPECT(memcmp(damaged, bits, sizeof damaged) == 0);
        else domains++;
    }
    EXPECT(domains > 0 && broken > 0);
}

#define CELLS PIROZHKAN_SPARSE_CELLS
/* a set and its orderings, as the functions are lent them */
#define SET(s) (s).state, CELLS, (s).ind, 16, (s).val, 16

typedef struct {
    uint32_t state[CELLS], ind[16], val[16];
} sparse;

static bool text_is(const sparse *s, const char *wanted) {
    uint8_t text[256];
    pirozhkan_count n = pirozhkan_counted(pirozhkan_sparse_text(SET(*s), text, sizeof text));
    return n.refused == 0 && n.count == strlen(wanted) && memcmp(text, wanted, strlen(wanted)) == 0;
}

/* Sparse sets, 4 to 6. */
static void sparse_cases(void) {
    sparse s, t;
    int32_t out[16];
    uint32_t saved[4] = {7, 7, 7, 7};
    const int32_t values[] = {1, 3, 6};
    memset(&s, 0x5a, sizeof s);
    EXPECT(pirozhkan_sparse_new_from_values(SET(s), values, 3) == 0 && text_is(&s, "[1,6,3|5,4,2]"));
    EXPECT(s.ind[6] == 0x5a5a5a5a && s.val[6] == 0x5a5a5a5a);
    EXPECT(pirozhkan_counted(pirozhkan_sparse_values(SET(s), out, 16)).count == 3 && out[0] == 1 && out[1] == 6 && out[2] == 3);
    EXPECT(pirozhkan_sparse_values(SET(s), out, 2) == PIROZHKAN_NO_ROOM);
    t = s;
    EXPECT(pirozhkan_sparse_restore_state(SET(t), 6, 0, 5) == 0);
    EXPECT(pirozhkan_counted(pirozhkan_sparse_values(SET(t), out, 16)).count == 6 && out[3] == 5 && out[4] == 4 && out[5] == 2);
    EXPECT(pirozhkan_told(pirozhkan_sparse_contains(SET(s), 6)).is && !pirozhkan_told(pirozhkan_sparse_contains(SET(s), 5)).is);

    EXPECT(pirozhkan_sparse_new(SET(s), 3, 0) == 0);
    EXPECT(pirozhkan_told(pirozhkan_sparse_remove(SET(s), 3)).is && text_is(&s, "[0,1,2|3]"));
    EXPECT(pirozhkan_sparse_remove_all_but(SET(s), 1) == 0 && text_is(&s, "[1|0,2,3]"));

    EXPECT(pirozhkan_sparse_new(SET(s), 0, 5) == 0 && pirozhkan_sparse_save_state(SET(s), saved, 4) == 0 && saved[3] == 7);
    EXPECT(pirozhkan_told(pirozhkan_sparse_remove(SET(s), 5)).is && pirozhkan_told(pirozhkan_sparse_remove(SET(s), 0)).is);
    EXPECT(pirozhkan_found(pirozhkan_sparse_min(SET(s))).value == 1 && pirozhkan_found(pirozhkan_sparse_max(SET(s))).value == 4);
    EXPECT(pirozhkan_sparse_restore_state(SET(s), saved[0], saved[1], saved[2]) == 0);
    EXPECT(pirozhkan_counted(pirozhkan_sparse_size(SET(s))).count == 6);
    for (int32_t v = 0; v <= 5; v++) EXPECT(pirozhkan_told(pirozhkan_sparse_contains(SET(s), v)).is);
    EXPECT(pirozhkan_found(pirozhkan_sparse_min(SET(s))).value == 0 && pirozhkan_found(pirozhkan_sparse_max(SET(s))).value == 5);
    EXPECT(pirozhkan_sparse_restore_state(SET(s), 7, 0, 5) == PIROZHKAN_BAD_STATE);
    EXPECT(pirozhkan_sparse_save_state(SET(s), saved, 2) == PIROZHKAN_NO_ROOM);

    const int32_t odd[] = {1, 3, 5, 7};
    EXPECT(pirozhkan_sparse_new_from_values(SET(t), odd, 4) == 0);
    EXPECT(pirozhkan_sparse_intersect_with(SET(s), SET(t), out, 5) == PIROZHKAN_NO_ROOM);
    out[3] = 77;
    EXPECT(pirozhkan_sparse_intersect_with(SET(s), SET(t), out, 16) == 0 && pirozhkan_counted(pirozhkan_sparse_size(SET(s))).count == 3);
    EXPECT(out[3] == 77 && pirozhkan_told(pirozhkan_sparse_contains(SET(s), 3)).is);
    EXPECT(pirozhkan_sparse_diff_with(SET(s), SET(t), out, 16) == 0 && pirozhkan_sparse_size(SET(s)) == 0);
    EXPECT(pirozhkan_sparse_union_with(SET(s), SET(t)) == 0 && pirozhkan_counted(pirozhkan_sparse_size(SET(s))).count == 3);
    EXPECT(pirozhkan_sparse_remove_below(SET(s), 2) == 0 && pirozhkan_sparse_remove_above(SET(s), 4) == 0);
    EXPECT(pirozhkan_found(pirozhkan_sparse_min(SET(s))).value == 3 && pirozhkan_found(pirozhkan_sparse_max(SET(s))).value == 3);
    EXPECT(pirozhkan_sparse_remove_all(SET(s)) == 0 && pirozhkan_refused(pirozhkan_sparse_min(SET(s))) == PIROZHKAN_EMPTY);

    /* too few cells, an ordering that is too short, a universe that is too wide: nothing is written */
    sparse before = s;
    EXPECT(pirozhkan_sparse_remove(s.state, CELLS - 1, s.ind, 16, s.val, 16, 3) == PIROZHKAN_NO_ROOM);
    EXPECT(pirozhkan_sparse_new(s.state, CELLS - 1, s.ind, 16, s.val, 16, 0, 3) == PIROZHKAN_NO_ROOM);
    EXPECT(pirozhkan_sparse_new(s.state, CELLS, s.ind, 16, s.val, 3, 0, 3) == PIROZHKAN_SHORT);
    EXPECT(pirozhkan_sparse_new(SET(s), 0, 4096) == PIROZHKAN_TOO_WIDE && pirozhkan_sparse_new(SET(s), INT32_MIN, INT32_MAX) == PIROZHKAN_TOO_WIDE);
    EXPECT(memcmp(&before, &s, sizeof s) == 0);
    /* every bit of a set changed in turn: refused and left as it was, or a set */
    unsigned sets = 0, refused = 0;
    EXPECT(pirozhkan_sparse_new(SET(s), -3, 12) == 0);
    EXPECT(pirozhkan_told(pirozhkan_sparse_remove(SET(s), 4)).is);
    before = s;
    for (size_t at = 0; at < 8 * sizeof s; at++) {
        s = before;
        ((unsigned char *)&s)[at / 8] ^= (unsigned char)(1 << at % 8);
        sparse damaged = s;
        unsigned asked = pirozhkan_refused(pirozhkan_sparse_size(SET(s)));
        EXPECT(asked == 0 || asked == PIROZHKAN_BROKEN || asked == PIROZHKAN_TOO_WIDE || asked == PIROZHKAN_SHORT);
        EXPECT(pirozhkan_refused(pirozhkan_sparse_remove_above(SET(s), 3)) == asked);
        EXPECT(pirozhkan_refused(pirozhkan_sparse_remove(SET(s), 2)) == asked);
        if (asked != 0) refused++, EXPECT(memcmp(&damaged, &s, sizeof s) == 0);
        else sets++;
    }
    EXPECT(sets > 0 && refused > 0);
}

/* Boards, 7 to 11, and one that the paper leaves out. */
static void board_cases(void) {
    const uint32_t list[] = {1, 2, 3, 4, 5, 6, 7};
    pirozhkan_new(state, W);
    add(1, 5, 5);
    add(2, 5, 5);
    EXPECT(pair_is(pirozhkan_propagate_alldiff(state, W, list, 2), true, false));
    EXPECT(holds_range(1, 5, 5) && holds_range(2, 1, 0));

    pirozhkan_new(state, W);
    add(1, 1, 2);
    add(2, 1, 2);
    add(3, 1, 4);
    EXPECT(pair_is(pirozhkan_propagate_alldiff(state, W, list, 3), true, true));
    EXPECT(holds_range(1, 1, 2) && holds_range(2, 1, 2) && holds_range(3, 3, 4));

    pirozhkan_new(state, W);
    for (uint32_t i = 1; i <= 3; i++) add(i, 1, 2);
    EXPECT(pair_is(pirozhkan_propagate_alldiff(state, W, list, 3), false, false));
    EXPECT(holds_range(3, 1, 0));

    for (uint32_t n = 6; n <= 7; n++) {
        pirozhkan_new(state, W);
        for (uint32_t i = 1; i <= n; i++) add(i, 1, i <= 2 ? 2 : 9);
        EXPECT(pair_is(pirozhkan_propagate_alldiff(state, W, list, n), n == 6, true));
        for (uint32_t i = 3; i <= n; i++) EXPECT(holds_range(i, n == 6 ? 3 : 1, 9));
    }

    /* one more: the second is assigned only as step 1 runs, so the third keeps 2 */
    pirozhkan_new(state, W);
    add(1, 1, 1);
    add(2, 1, 2);
    add(3, 2, 3);
    for (uint32_t i = 4; i <= 7; i++) add(i, 1, 9);
    EXPECT(pirozhkan_reset_changed_flag(state, W) == 0);
    EXPECT(pair_is(pirozhkan_propagate_alldiff(state, W, list, 7), true, true));
    EXPECT(holds_range(1, 1, 1) && holds_range(2, 2, 2) && holds_range(3, 2, 3));
    for (uint32_t i = 4; i <= 7; i++) EXPECT(holds_range(i, 2, 9));
    EXPECT(pirozhkan_told(pirozhkan_domains_changed(state, W)).is);
}

static void questions(void) {
    int32_t ends[3] = {77, 77, 77};
    uint32_t ids[4] = {77, 77, 77, 77};
    const int32_t values[] = {9, -3, INT32_C(100), -3};
    const int32_t sorted[] = {-3, 9, 100};
    const int32_t low[] = {INT32_MIN};
    pirozhkan_new(state, W);
    EXPECT(pirozhkan_told(pirozhkan_domains_changed(state, W)).is == false);
    EXPECT(pirozhkan_add_variable_with_values(state, W, UINT32_MAX, values, 4) == 0);
    EXPECT(pirozhkan_add_variable_with_values(state, W, 0, low, 1) == 0);
    add(7, INT32_MAX - 1, INT32_MAX);
    EXPECT(pirozhkan_told(pirozhkan_domains_changed(state, W)).is);
    EXPECT(pirozhkan_reset_changed_flag(state, W) == 0);
    EXPECT(pirozhkan_told(pirozhkan_domains_changed(state, W)).is == false);
    EXPECT(holds(UINT32_MAX, 3, sorted));
    EXPECT(pirozhkan_get_bounds(state, W, UINT32_MAX, ends, 3) == 0);
    EXPECT(ends[0] == -3 && ends[1] == 100 && ends[2] == 77);
    EXPECT(pirozhkan_refused(pirozhkan_get_bounds(state, W, 7, ends, 1)) == PIROZHKAN_NO_ROOM);
    EXPECT(ends[0] == -3 && ends[1] == 100);
    EXPECT(pirozhkan_refused(pirozhkan_get_bounds(state, W, 99, ends, 1)) == PIROZHKAN_EMPTY);
    EXPECT(pirozhkan_refused(pirozhkan_get_domain_values(state, W, UINT32_MAX, ends, 2)) == PIROZHKAN_NO_ROOM);
    EXPECT(ends[0] == -3 && ends[1] == 100);
    EXPECT(pirozhkan_counted(pirozhkan_variables(state, W, ids, 4)).count == 3);
    EXPECT(ids[0] == UINT32_MAX && ids[1] == 0 && ids[2] == 7 && ids[3] == 77);
    EXPECT(pirozhkan_refused(pirozhkan_variables(state, W, ids, 2)) == PIROZHKAN_NO_ROOM);
    EXPECT(pirozhkan_told(pirozhkan_is_assigned(state, W, 0)).is && !pirozhkan_told(pirozhkan_is_assigned(state, W, 7)).is);
    EXPECT(pirozhkan_found(pirozhkan_assigned_value(state, W, 0)).value == INT32_MIN);
    EXPECT(pirozhkan_found(pirozhkan_assigned_value(state, W, 7)).refused == PIROZHKAN_EMPTY);
    EXPECT(pirozhkan_told(pirozhkan_remove_below(state, W, 7, INT32_MAX)).is);
    EXPECT(pirozhkan_found(pirozhkan_assigned_value(state, W, 7)).value == INT32_MAX);
    EXPECT(pirozhkan_told(pirozhkan_remove_value(state, W, UINT32_MAX, 9)).is);
    EXPECT(!pirozhkan_told(pirozhkan_remove_value(state, W, UINT32_MAX, 9)).is);
    EXPECT(pirozhkan_told(pirozhkan_remove_above(state, W, UINT32_MAX, 99)).is);
    EXPECT(pirozhkan_found(pirozhkan_assigned_value(state, W, UINT32_MAX)).value == -3);
    EXPECT(!pirozhkan_told(pirozhkan_assign_variable(state, W, 12345, 1)).is);
    EXPECT(pirozhkan_told(pirozhkan_is_inconsistent(state, W, 12345)).is);
    EXPECT(pirozhkan_counted(pirozhkan_domain_size(state, W, 12345)).count == 0);
    const uint32_t all[] = {0, 7, UINT32_MAX};
    EXPECT(pirozhkan_told(pirozhkan_ready(state, W, all, 3)).is);
    const uint32_t unknown[] = {0, 7, 5, 5};
    pirozhkan_changed_consistent refused = pirozhkan_pair(pirozhkan_propagate_alldiff(state, W, unknown, 4));
    EXPECT(refused.refused == PIROZHKAN_UNKNOWN && refused.place == 2);
    const uint32_t twice[] = {7, 7};
    pirozhkan_is again = pirozhkan_told(pirozhkan_ready(state, W, twice, 2));
    EXPECT(again.refused == PIROZHKAN_REPEATED && again.place == 1 && !again.is);
    uint32_t many[65];
    memset(many, 0, sizeof many);
    EXPECT(pirozhkan_refused(pirozhkan_ready(state, W, many, 65)) == PIROZHKAN_TOO_LONG);
}

/* Closings in order out of three runs; a batch that is refused applies none. */
static void batches(void) {
    uint32_t kinds[257] = {PIROZHKAN_REMOVE, PIROZHKAN_REMOVE, PIROZHKAN_BELOW, PIROZHKAN_ABOVE, PIROZHKAN_ASSIGN, PIROZHKAN_ASSIGN};
    uint32_t ids[257] = {1, 1, 1, 1, 2, 3};
    int32_t values[257] = {5, 5, 4, 8, 3, 3};
    const int32_t left[] = {4, 6, 7, 8};
    uint64_t before[W];
    pirozhkan_new(state, W);
    add(1, 1, 9);
    add(2, 1, 9);
    EXPECT(pirozhkan_counted(pirozhkan_batch(state, W, kinds, 6, ids, 6, values, 6)).count == 4);
    EXPECT(holds(1, 4, left) && holds_range(2, 3, 3));
    memcpy(before, state, sizeof before);
    EXPECT(pirozhkan_batch(state, W, kinds, 6, ids, 5, values, 6) == PIROZHKAN_SHORT);
    EXPECT(pirozhkan_batch(state, 5, kinds, 6, ids, 6, values, 5) == PIROZHKAN_SHORT);
    EXPECT(pirozhkan_batch(state, 5, kinds, 257, ids, 257, values, 257) == PIROZHKAN_NO_ROOM);
    EXPECT(pirozhkan_batch(state, W, kinds, 257, ids, 257, values, 257) == PIROZHKAN_TOO_LONG);
    kinds[0] = PIROZHKAN_REMOVE;
    kinds[1] = 5;
    values[0] = 6;
    uint64_t code = pirozhkan_batch(state, W, kinds, 2, ids, 2, values, 2);
    EXPECT(pirozhkan_refused(code) == PIROZHKAN_BAD_SHEET && pirozhkan_place(code) == 1);
    kinds[0] = 0;
    EXPECT(pirozhkan_batch(state, W, kinds, 1, ids, 1, values, 1) == PIROZHKAN_BAD_SHEET);
    EXPECT(memcmp(before, state, sizeof before) == 0);
    state[0] = 65;
    EXPECT(pirozhkan_batch(state, W, kinds, 2, ids, 2, values, 2) == PIROZHKAN_BROKEN);
    EXPECT(pirozhkan_batch(state, W, kinds, 257, ids, 257, values, 257) == PIROZHKAN_BROKEN && state[0] == 65);
}

/* The paper's sheet, a bad one, and too little room. */
static void sheets(void) {
    const char *sheet = "4\n20 1 3\n21 1 3\n22 1 2\n23 7 7\n2\n1 20 3\n2 21 2\n2\n3 20 21 22\n2 20 99\n";
    const char *text = "D 20 1 1 1\nD 21 1 2 2\nD 22 0 - -\nD 23 1 7 7\nL 0 1 0\nL 1 R 6 1\n";
    uint8_t out[PIROZHKAN_TEXT];
    memset(out, 0x5a, sizeof out);
    EXPECT(pirozhkan_wave((const uint8_t *)sheet, strlen(sheet), out, strlen(text) - 1) == PIROZHKAN_NO_ROOM && out[0] == 0x5a);
    EXPECT(pirozhkan_counted(pirozhkan_wave((const uint8_t *)sheet, strlen(sheet), out, sizeof out)).count == strlen(text));
    EXPECT(memcmp(out, text, strlen(text)) == 0 && out[strlen(text)] == 0x5a);
    EXPECT(pirozhkan_counted(pirozhkan_wave((const uint8_t *)sheet, 9, out, sizeof out)).count == 7);
    EXPECT(memcmp(out, "R 15 9\n", 7) == 0);
}

/* A trial in a trial in a trial: the innermost is undone, the middle one kept, and the outermost undone with all of it. */
static void trials(void) {
    pirozhkan_new(state, W);
    add(1, 1, 9);
    EXPECT(pirozhkan_refused(pirozhkan_restore(state, W)) == PIROZHKAN_NO_MARK);
    EXPECT(pirozhkan_mark(state, W) == 0);
    EXPECT(pirozhkan_refused(pirozhkan_add_variable(state, W, 2, 1, 2)) == PIROZHKAN_TRIAL_OPEN);
    EXPECT(pirozhkan_told(pirozhkan_remove_above(state, W, 1, 7)).is);
    EXPECT(pirozhkan_mark(state, W) == 0);
    EXPECT(pirozhkan_told(pirozhkan_assign_variable(state, W, 1, 4)).is);
    EXPECT(pirozhkan_mark(state, W) == 0);
    EXPECT(pirozhkan_told(pirozhkan_remove_value(state, W, 1, 4)).is);
    EXPECT(pirozhkan_told(pirozhkan_is_inconsistent(state, W, 1)).is);
    EXPECT(pirozhkan_restore(state, W) == 0);
    EXPECT(holds_range(1, 4, 4));
    EXPECT(pirozhkan_keep(state, W) == 0);
    EXPECT(holds_range(1, 4, 4));
    EXPECT(pirozhkan_restore(state, W) == 0);
    EXPECT(holds_range(1, 1, 9));
    EXPECT(pirozhkan_refused(pirozhkan_keep(state, W)) == PIROZHKAN_NO_MARK);
    for (int i = 0; i < 8; i++) EXPECT(pirozhkan_mark(state, W) == 0);
    EXPECT(pirozhkan_refused(pirozhkan_mark(state, W)) == PIROZHKAN_TOO_DEEP);
}

static void full(int marks) {
    pirozhkan_new(state, W);
    for (uint32_t i = 0; i < 64; i++) add(1000 + 1000 * i, (int32_t)i, (int32_t)i + (i % 3 == 0 ? 127 : 90));
    EXPECT(pirozhkan_refused(pirozhkan_add_variable(state, W, 1, 1, 2)) == PIROZHKAN_FULL);
    for (int i = 0; i < marks; i++) {
        EXPECT(pirozhkan_mark(state, W) == 0);
        EXPECT(pirozhkan_told(pirozhkan_remove_value(state, W, 1000, 100 - i)).is);
    }
}

/* Too few words; and words past the state's stay as they are. */
static void ends(void) {
    full(3);
    uint64_t before[W];
    memcpy(before, state, sizeof before);
    for (size_t words = 0; words < W; words++) {
        EXPECT(pirozhkan_remove_value(state, words, 1000, 5) == PIROZHKAN_NO_ROOM);
        EXPECT(pirozhkan_domain_size(state, words, 1000) == PIROZHKAN_NO_ROOM);
    }
    EXPECT(pirozhkan_new(state, W - 1) == PIROZHKAN_NO_ROOM && memcmp(before, state, sizeof before) == 0);
    for (size_t i = W; i < W + 8; i++) state[i] = 0x5a5a5a5a5a5a5a5a;
    EXPECT(pirozhkan_told(pirozhkan_remove_value(state, W + 8, 1000, 5)).is);
    EXPECT(pirozhkan_mark(state, W + 8) == 0 && pirozhkan_restore(state, W + 8) == 0 && pirozhkan_new(state, W + 8) == 0);
    for (size_t i = W; i < W + 8; i++) EXPECT(state[i] == 0x5a5a5a5a5a5a5a5a);
}

/* Every byte of a good state changed in turn: the state is refused as it came, or it is a board, and every call takes it. */
static void damage(void) {
    unsigned long boards = 0, broken = 0;
    uint64_t good[W], bad[W];
    full(8);
    memcpy(good, state, sizeof good);
    for (size_t at = 0; at < sizeof good; at++) {
        for (unsigned bits = 1; bits < 256; bits = bits * 3 + 1) {
            memcpy(bad, good, sizeof bad);
            ((unsigned char *)bad)[at] ^= (unsigned char)bits;
            memcpy(state, bad, sizeof bad);
            uint64_t code = pirozhkan_remove_value(state, W, 2000, 70);
            unsigned asked = pirozhkan_refused(pirozhkan_domain_size(bad, W, 2000));
            EXPECT(pirozhkan_refused(code) == asked && asked <= PIROZHKAN_BROKEN);
            if (asked == PIROZHKAN_BROKEN) {
                broken++;
                EXPECT(memcmp(state, bad, sizeof bad) == 0);
            } else {
                boards++;
                EXPECT(pirozhkan_refused(pirozhkan_domains_changed(state, W)) == 0);
                EXPECT(pirozhkan_refused(pirozhkan_keep(state, W)) != PIROZHKAN_BROKEN);
            }
        }
    }
    EXPECT(boards > 0 && broken > 0);
    printf("damaged states: %lu refused, %lu boards\n", broken, boards);
}

int main(void) {
    bit_cases();
    sparse_cases();
    board_cases();
    questions();
    batches();
    sheets();
    trials();
    ends();
    damage();
    printf("c: %lu checks\n", checks);
    return 0;
}
