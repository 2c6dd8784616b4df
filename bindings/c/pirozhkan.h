/* The chute assignment core of a tilt-tray sorter: a board of up to 64 destinations, each with the chutes that it may still use; and the
 * bit domains and sparse sets by themselves.
 *
 * The caller lends the board's state: PIROZHKAN_WORDS words that it may keep, copy and store as it likes, on machines of one byte order.
 * Every function looks at the whole state first. Fewer words than PIROZHKAN_WORDS are refused (PIROZHKAN_NO_ROOM), then words that aren't a well-formed board's
 * (PIROZHKAN_BROKEN), then what stands behind "refuses" below, in that order; and a refused call changes nothing at all, neither the
 * state nor a lent cell. So it is with a bit domain in PIROZHKAN_BIT_WORDS words, and with a sparse set in PIROZHKAN_SPARSE_CELLS cells
 * of state and two orderings.
 *
 * What is asked of the caller is this alone: a pointer is aligned, not null, and points to as many elements as the length beside
 * it says; elements that a function writes (a pointer that isn't const) are not read or written by anything else meanwhile, and are
 * no part of another argument. A length counts elements. Elements past those of a state, and cells past those that an answer needs, are
 * never written.
 *
 * Each function returns one number, its code. pirozhkan_told, pirozhkan_pair, pirozhkan_counted and pirozhkan_found, whichever is named
 * below, take it apart: `refused` is 0, or the number of the refusal, and `place` the place in the list that it names, from 0. Where none
 * is named, the code of an accepted call is 0.
 *
 * Link with libpirozhkan.a, which bindings/build makes. */
#ifndef PIROZHKAN_H
#define PIROZHKAN_H

#include <stdbool.h>
#include <stddef.h>
#include <stdint.h>

#ifdef __cplusplus
extern "C" {
#endif

#define PIROZHKAN_WORDS 1283

/* The refusals. Number 13 is of calls on two bit domains, of which there are none here. */
enum {
    PIROZHKAN_BROKEN = 1,      /* the state isn't a well-formed one */
    PIROZHKAN_FULL = 2,        /* a new destination, and 64 are registered */
    PIROZHKAN_TRIAL_OPEN = 3,  /* registration while a mark is open */
    PIROZHKAN_TOO_DEEP = 4,    /* a mark, and 8 are open */
    PIROZHKAN_NO_MARK = 5,     /* restore or keep, and none is open */
    PIROZHKAN_UNKNOWN = 6,     /* a listed destination isn't registered (place) */
    PIROZHKAN_REPEATED = 7,    /* a listed destination stood earlier in the list (place) */
    PIROZHKAN_TOO_LONG = 8,    /* a list of more than 64, a batch of more than 256 */
    PIROZHKAN_TOO_WIDE = 9,    /* a sparse universe of more than 4096 values */
    PIROZHKAN_SHORT = 10,      /* the runs of a batch differ in length; an ordering has fewer cells than the universe has values */
    PIROZHKAN_EMPTY = 11,      /* bounds where there is no value; the one value where there isn't just one */
    PIROZHKAN_BAD_STATE = 12,  /* a restored state that doesn't fit the set */
    PIROZHKAN_NO_ROOM = 14,    /* too few words for a state, or too few cells for an answer */
    PIROZHKAN_BAD_SHEET = 15   /* a number in a batch is no kind (place) */
};

/* The kinds of closing in a batch. */
enum { PIROZHKAN_REMOVE = 1, PIROZHKAN_ASSIGN = 2, PIROZHKAN_BELOW = 3, PIROZHKAN_ABOVE = 4 };

/* ---- the board */

/* An empty board, whatever the words were. */
uint64_t pirozhkan_new(uint64_t *state, size_t words);

/* Registers a destination with the chutes from min to max, in either order, or with those listed; a known one gets a new domain. More than
 * 128 values from the least to the greatest give a domain of no chutes. Refuses: TRIAL_OPEN; FULL, of a new one. */
uint64_t pirozhkan_add_variable(uint64_t *state, size_t words, uint32_t id, int32_t min, int32_t max);
uint64_t pirozhkan_add_variable_with_values(uint64_t *state, size_t words, uint32_t id, const int32_t *values, size_t count);

/* The four closings: `value` goes, all but `value` go (all, where it isn't open), those below it go, those above it go. told: whether a
 * chute went. Of a destination that isn't registered the answer is no. */
uint64_t pirozhkan_remove_value(uint64_t *state, size_t words, uint32_t id, int32_t value);
uint64_t pirozhkan_assign_variable(uint64_t *state, size_t words, uint32_t id, int32_t value);
uint64_t pirozhkan_remove_below(uint64_t *state, size_t words, uint32_t id, int32_t value);
uint64_t pirozhkan_remove_above(uint64_t *state, size_t words, uint32_t id, int32_t value);

/* A batch of at most 256 closings, applied in order: three runs of one length, of kinds (PIROZHKAN_REMOVE ..), destinations and values.
 * counted: how many closings took a chute. Refuses: SHORT, before the state is looked at; TOO_LONG; BAD_SHEET. */
uint64_t pirozhkan_batch(uint64_t *state, size_t words, const uint32_t *kinds, size_t kind_count, const uint32_t *ids, size_t id_count,
                         const int32_t *values, size_t value_count);

/* Narrows the listed destinations so that each can have a chute of its own. pair: `changed`, whether a chute went (after a stop in the
 * second step: whether one went in the first); `consistent`, whether no destination lost its last chute. Refuses: TOO_LONG; UNKNOWN or
 * REPEATED, at the leftmost such place. */
uint64_t pirozhkan_propagate_alldiff(uint64_t *state, size_t words, const uint32_t *list, size_t count);

/* told: whether every listed destination is assigned. Refuses as propagation does. */
uint64_t pirozhkan_ready(const uint64_t *state, size_t words, const uint32_t *list, size_t count);

/* ---- trials: a mark saves every domain; restore brings the newest mark's domains back and closes it, keep closes it only. Refuse:
 * TOO_DEEP, a mark; NO_MARK, the others */

uint64_t pirozhkan_mark(uint64_t *state, size_t words);
uint64_t pirozhkan_restore(uint64_t *state, size_t words);
uint64_t pirozhkan_keep(uint64_t *state, size_t words);

/* ---- questions */

/* counted: how many chutes the destination may still use; 0 where it isn't registered. */
uint64_t pirozhkan_domain_size(const uint64_t *state, size_t words, uint32_t id);

/* told: whether that is exactly one; whether it is none. */
uint64_t pirozhkan_is_assigned(const uint64_t *state, size_t words, uint32_t id);
uint64_t pirozhkan_is_inconsistent(const uint64_t *state, size_t words, uint32_t id);

/* found: the one chute. Refuses: EMPTY, where there is none or more than one. */
uint64_t pirozhkan_assigned_value(const uint64_t *state, size_t words, uint32_t id);

/* The smallest and the largest chute go into cells[0] and cells[1]. Refuses: EMPTY; NO_ROOM, of fewer than two cells. */
uint64_t pirozhkan_get_bounds(const uint64_t *state, size_t words, uint32_t id, int32_t *cells, size_t count);

/* counted: how many chutes went into the cells, in ascending order (128 cells are always enough). Refuses: NO_ROOM. */
uint64_t pirozhkan_get_domain_values(const uint64_t *state, size_t words, uint32_t id, int32_t *cells, size_t count);

/* counted: how many destinations went into the cells, in order of first registration (64 cells are always enough). Refuses: NO_ROOM. */
uint64_t pirozhkan_variables(const uint64_t *state, size_t words, uint32_t *cells, size_t count);

/* told: whether a destination was registered, or a closing or the first step of a propagation took a chute, since the flag was reset. */
uint64_t pirozhkan_domains_changed(const uint64_t *state, size_t words);
uint64_t pirozhkan_reset_changed_flag(uint64_t *state, size_t words);

/* ---- a whole sheet */

/* Registers a wave sheet's destinations, applies its closings in order, propagates each of its lists once, and writes the board and what
 * each list was answered as text; of a bad sheet, its refusal as text. counted: how many bytes the text has (PIROZHKAN_TEXT are always
 * enough). Refuses: NO_ROOM. */
#define PIROZHKAN_TEXT 2816
uint64_t pirozhkan_wave(const uint8_t *sheet, size_t bytes, uint8_t *out, size_t room);

/* ---- a bit domain: values of a universe of at most 128, in PIROZHKAN_BIT_WORDS words */

#define PIROZHKAN_BIT_WORDS 3

/* Whatever the words were: the values from min to max in either order, all held, or none of them; the listed values, over the universe from
 * the least to the greatest. More than 128 values in the universe give a domain of no values. */
uint64_t pirozhkan_bit_new(uint64_t *state, size_t words, int32_t min, int32_t max);
uint64_t pirozhkan_bit_new_empty(uint64_t *state, size_t words, int32_t min, int32_t max);
uint64_t pirozhkan_bit_new_from_values(uint64_t *state, size_t words, const int32_t *values, size_t count);

/* told: whether membership changed. A value outside the universe is not inserted. */
uint64_t pirozhkan_bit_insert(uint64_t *state, size_t words, int32_t value);
uint64_t pirozhkan_bit_remove(uint64_t *state, size_t words, int32_t value);

/* All go; all but `value` go (all, where it isn't held); those below it go; those above it go. */
uint64_t pirozhkan_bit_remove_all(uint64_t *state, size_t words);
uint64_t pirozhkan_bit_remove_all_but(uint64_t *state, size_t words, int32_t value);
uint64_t pirozhkan_bit_remove_below(uint64_t *state, size_t words, int32_t value);
uint64_t pirozhkan_bit_remove_above(uint64_t *state, size_t words, int32_t value);

/* told: whether it is held. counted: how many are held. found: the only one, the smallest, the largest. The last three refuse: EMPTY. */
uint64_t pirozhkan_bit_contains(const uint64_t *state, size_t words, int32_t value);
uint64_t pirozhkan_bit_size(const uint64_t *state, size_t words);
uint64_t pirozhkan_bit_fixed_value(const uint64_t *state, size_t words);
uint64_t pirozhkan_bit_min(const uint64_t *state, size_t words);
uint64_t pirozhkan_bit_max(const uint64_t *state, size_t words);

/* counted: how many values went into the cells, ascending (128 cells are always enough); how many bytes the text has (PIROZHKAN_BIT_TEXT
 * are always enough). The text is `[1,2,3|7,9]`: the first run of values without a gap, then the others. Refuse: NO_ROOM. */
#define PIROZHKAN_BIT_TEXT 1538
uint64_t pirozhkan_bit_values(const uint64_t *state, size_t words, int32_t *cells, size_t count);
uint64_t pirozhkan_bit_text(const uint64_t *state, size_t words, uint8_t *text, size_t room);

/* ---- a sparse set: values of a universe of at most 4096, in PIROZHKAN_SPARSE_CELLS cells of state and two orderings that have a cell for
 * each value of the universe. The two orderings belong to the state: the three are lent together. Too few cells of state are refused first
 * (NO_ROOM), then a universe of more values (TOO_WIDE), an ordering of fewer cells than it has values (SHORT), and what isn't well formed
 * (BROKEN). */

#define PIROZHKAN_SPARSE_CELLS 5

/* Whatever the cells were: the values from min to max in either order, all held; the listed values, over the universe from the least to the
 * greatest. */
uint64_t pirozhkan_sparse_new(uint32_t *state, size_t cells, uint32_t *ind, size_t ind_count, uint32_t *val, size_t val_count,
                              int32_t min, int32_t max);
uint64_t pirozhkan_sparse_new_from_values(uint32_t *state, size_t cells, uint32_t *ind, size_t ind_count, uint32_t *val,
                                          size_t val_count, const int32_t *values, size_t count);

/* told: whether it was held. */
uint64_t pirozhkan_sparse_remove(uint32_t *state, size_t cells, uint32_t *ind, size_t ind_count, uint32_t *val, size_t val_count,
                                 int32_t value);

/* All go; all but `value` go (all, where it isn't held); those below it go; those above it go. */
uint64_t pirozhkan_sparse_remove_all(uint32_t *state, size_t cells, const uint32_t *ind, size_t ind_count, const uint32_t *val,
                                     size_t val_count);
uint64_t pirozhkan_sparse_remove_all_but(uint32_t *state, size_t cells, uint32_t *ind, size_t ind_count, uint32_t *val, size_t val_count,
                                         int32_t value);
uint64_t pirozhkan_sparse_remove_below(uint32_t *state, size_t cells, uint32_t *ind, size_t ind_count, uint32_t *val, size_t val_count,
                                       int32_t value);
uint64_t pirozhkan_sparse_remove_above(uint32_t *state, size_t cells, uint32_t *ind, size_t ind_count, uint32_t *val, size_t val_count,
                                       int32_t value);

/* Keeps those that the second set holds; drops them; adds those of its values that are in the universe. The values that go are written into
 * the scratch. Refuse: NO_ROOM, of a scratch of fewer cells than the first set holds values. */
uint64_t pirozhkan_sparse_intersect_with(uint32_t *state, size_t cells, uint32_t *ind, size_t ind_count, uint32_t *val, size_t val_count,
                                         const uint32_t *other, size_t other_cells, const uint32_t *other_ind, size_t other_ind_count,
                                         const uint32_t *other_val, size_t other_val_count, int32_t *scratch, size_t scratch_count);
uint64_t pirozhkan_sparse_diff_with(uint32_t *state, size_t cells, uint32_t *ind, size_t ind_count, uint32_t *val, size_t val_count,
                                    const uint32_t *other, size_t other_cells, const uint32_t *other_ind, size_t other_ind_count,
                                    const uint32_t *other_val, size_t other_val_count, int32_t *scratch, size_t scratch_count);
uint64_t pirozhkan_sparse_union_with(uint32_t *state, size_t cells, uint32_t *ind, size_t ind_count, uint32_t *val, size_t val_count,
                                     const uint32_t *other, size_t other_cells, const uint32_t *other_ind, size_t other_ind_count,
                                     const uint32_t *other_val, size_t other_val_count);

/* What to restore later goes into three cells: size, and the smallest and the largest held offset. Restored, it gives the saved members and
 * bounds, if since then only calls of this library touched the three runs, with no union and no restore to a larger size. A copy of the
 * state's cells that is restored to (n, 0, n - 1), where n is the size of the universe, holds all of it: the held values first, then the
 * others. Refuse: NO_ROOM, of fewer than three cells; BAD_STATE, where what is restored doesn't fit. */
uint64_t pirozhkan_sparse_save_state(const uint32_t *state, size_t cells, const uint32_t *ind, size_t ind_count, const uint32_t *val,
                                     size_t val_count, uint32_t *saved, size_t count);
uint64_t pirozhkan_sparse_restore_state(uint32_t *state, size_t cells, const uint32_t *ind, size_t ind_count, const uint32_t *val,
                                        size_t val_count, uint32_t size, uint32_t min, uint32_t max);

/* told: whether it is held. counted: how many are held. found: the smallest, the largest. The last two refuse: EMPTY. */
uint64_t pirozhkan_sparse_contains(const uint32_t *state, size_t cells, const uint32_t *ind, size_t ind_count, const uint32_t *val,
                                   size_t val_count, int32_t value);
uint64_t pirozhkan_sparse_size(const uint32_t *state, size_t cells, const uint32_t *ind, size_t ind_count, const uint32_t *val,
                               size_t val_count);
uint64_t pirozhkan_sparse_min(const uint32_t *state, size_t cells, const uint32_t *ind, size_t ind_count, const uint32_t *val,
                              size_t val_count);
uint64_t pirozhkan_sparse_max(const uint32_t *state, size_t cells, const uint32_t *ind, size_t ind_count, const uint32_t *val,
                              size_t val_count);

/* counted: how many values went into the cells, in the set's own order; how many bytes the text has (12 for each value of the universe, and
 * 3 more, are always enough). The text is `[1,6,3|5,4,2]`: the held values, and the others of the universe. Refuse: NO_ROOM. */
uint64_t pirozhkan_sparse_values(const uint32_t *state, size_t cells, const uint32_t *ind, size_t ind_count, const uint32_t *val,
                                 size_t val_count, int32_t *out, size_t count);
uint64_t pirozhkan_sparse_text(const uint32_t *state, size_t cells, const uint32_t *ind, size_t ind_count, const uint32_t *val,
                               size_t val_count, uint8_t *text, size_t room);

/* ---- codes */

typedef struct {
    unsigned refused;
    uint64_t place;
    bool is;
} pirozhkan_is;

typedef struct {
    unsigned refused;
    uint64_t place;
    bool changed;
    bool consistent;
} pirozhkan_changed_consistent;

typedef struct {
    unsigned refused;
    uint64_t place;
    uint64_t count;
} pirozhkan_count;

typedef struct {
    unsigned refused;
    uint64_t place;
    int32_t value;
} pirozhkan_value;

/* The number of a refusal, 0 where the call was accepted; the place that a refusal names. */
static inline unsigned pirozhkan_refused(uint64_t code) { return (unsigned)(code & 255); }

static inline uint64_t pirozhkan_place(uint64_t code) { return (code & 255) != 0 ? code >> 8 : 0; }

static inline pirozhkan_is pirozhkan_told(uint64_t code) {
    unsigned refused = pirozhkan_refused(code);
    pirozhkan_is told = {refused, pirozhkan_place(code), refused == 0 && code >> 8 == 1};
    return told;
}

static inline pirozhkan_changed_consistent pirozhkan_pair(uint64_t code) {
    unsigned refused = pirozhkan_refused(code);
    pirozhkan_changed_consistent pair = {refused, pirozhkan_place(code), refused == 0 && (code >> 8 & 1) != 0, refused == 0 && code >> 9 == 1};
    return pair;
}

static inline pirozhkan_count pirozhkan_counted(uint64_t code) {
    unsigned refused = pirozhkan_refused(code);
    pirozhkan_count counted = {refused, pirozhkan_place(code), refused == 0 ? code >> 8 : 0};
    return counted;
}

/* A chute stands in a code as its distance from the least int32_t. */
static inline pirozhkan_value pirozhkan_found(uint64_t code) {
    unsigned refused = pirozhkan_refused(code);
    pirozhkan_value found = {refused, pirozhkan_place(code), refused == 0 ? (int32_t)((int64_t)(code >> 8) + INT32_MIN) : 0};
    return found;
}

#ifdef __cplusplus
}
#endif

#endif
