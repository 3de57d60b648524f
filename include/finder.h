/* finder.h: where does a tune stand in a score?
 *
 * Link with libfinder_c.a, which bindings/native-lib builds for an x86-64 processor. The library calls nothing but `memset` and
 * `memcpy`: it allocates nothing, keeps nothing between calls and may be called from several threads at once, each with buffers
 * of its own.
 *
 * A score is `cells`, column after column, `tracks` cells a column, one per track. A cell 0 to 127 is a MIDI pitch and
 * 255 is a rest. There are 1 to 16 tracks and n = 1 to 2,048 columns, numbered from 1. A theme is 2 to 32 pitches.
 *
 * A pair (column, shift) says that the theme stands at that column with that shift: the columns with a pitch from that
 * one on, itself the first, hold the notes moved by the shift (score minus theme), one after another, whichever track has
 * each. Columns of rests only are passed over; all columns keep their numbers.
 *   way 0, exact:   shifts -127 to 127.
 *   way 1, octave:  shifts 0 to 11, octaves ignored.
 *   way 2, written: shift 0 alone, the tune in its own key. The pairs are those of exact with shift 0. The plain page
 *                   and the router take it; the quick page, the question and the explainer do not.
 * Pairs are listed by rising column, then by rising shift.
 *
 * There are seven calls. finder_prepare and finder_update keep a score's interval sets; finder_plain_page and
 * finder_quick_page list pairs; finder_occurs, the question, says whether there is any; finder_explain, the explainer, says
 * why one pair is listed or not; finder_route, the router, says who plays a listed pair, with the fewest changes of track.
 *
 * A score's interval sets, which finder_prepare fills, serve the quick page, the question and the explainer. Their summary
 * is one number of 12 bits: bit d, d = 0 to 11, is 0 exactly where some set has bit d at 0; with no sets it is 4095. So it is
 * the `&` of 4095 and all sets. finder_prepare and finder_update give it, and finder_occurs is handed it beside the sets. In
 * these three calls `answer` has 1 place, for the one number that each says; so it has in finder_route.
 *
 * A page call writes the first pairs at or after its bookmark (column, shift), as many as the buffers have places. The
 * first bookmark is (1, -127), for octave and written (1, 0). After a full page whose last pair is (j, c) the next bookmark
 * is (j, c + 1); after a finished list it is (n + 1, -127), for octave and written (n + 1, 0). Where the bookmark's column
 * has no pitch, its shift, any of the range, changes nothing. In a page call `answer` has 5 places:
 *   answer[0]  pairs written, from the front of `columns` and `shifts`; places behind them keep their contents
 *   answer[1]  next bookmark: column
 *   answer[2]  next bookmark: shift
 *   answer[3]  1 where the list is finished, otherwise 0
 *   answer[4]  looks: how many notes after a theme's first were looked for; for written always 0
 * A page that is full is never finished: the next one, from the next bookmark, may be empty.
 *
 * In finder_explain `answer` has 69 places:
 *   answer[0]  the reason: 0 where the pair is listed, and otherwise the first of these that is true:
 *                1  the shift is not one of the way's; 128 and 12, which a bookmark may have, are not
 *                2  the column is 0
 *                3  from the column on, fewer columns have a pitch than the theme has notes; so it is from any above n on
 *                4  the column has no pitch
 *                5  the first note that fails lies, when it is moved, outside 0 to 127; exact only
 *                6  the first note that fails is, when it is moved, absent from the column in which it is sought
 *   answer[1]  with reason 5 or 6 the number of that note, from 1; otherwise 0
 *   answer[2]  what the sets make of the column, whatever the shift: 1 where they keep it, 2 where they dismiss it; 0 where
 *              the column is 0, leaves too few, or has no pitch
 *   answer[3]  where they dismiss it, the number of the first interval of the theme that is not in its set; interval 1 leads
 *              from note 1 to note 2. Otherwise 0
 *   answer[4]  where they dismiss it, the size of that interval, 0 to 11 semitones upwards, octaves ignored; otherwise 0
 *   answer[5] to answer[68]
 *              where the pair is listed, for each note the lowest track, from 1, that holds it, and 0 behind the last note;
 *              otherwise 0
 * Note 1 is sought in the column itself, each further note in the next column with a pitch. An interval is looked for in the
 * set of the column of the note from which it leads.
 *
 * Each call returns 0 where it is accepted, and otherwise the refusal, number + 256 * place, the lowest number that
 * applies; place is 0 where none is named. A refused call writes nothing.
 *    1  there are no tracks, or more than 16
 *    2  the cells do not fill whole columns, or there is no column, or more than 2,048
 *    3  some cell is neither a pitch nor a rest; place: the first of them, counted from 0
 *    4  the theme has fewer than 2 notes, or more than 32
 *    5  some note is above 127; place: the first of them, counted from 0
 *    6  `sets` has not n - 1 places
 *    7  some set is above 4095; place: the first of them, counted from 0
 *    8  `table` has not 4,096 places
 *    9  `columns` has no place, or `shifts` has not as many
 *   10  the bookmark's column is not 1 to n + 1, or its shift is below the lowest or more than one above the highest:
 *       not -127 to 128 for exact, 0 to 12 for octave, 0 to 1 for written
 *   12  `summary` is not the summary of `sets`
 *   13  the pair is not listed; finder_explain says why, exact or octave
 *   14  `route` has fewer places than the theme has notes
 *   19  the changed column is not 1 to n
 *  255  before any refusal: way is above 2 in the plain page or the router, or above 1 in the quick page, the question or
 *       the explainer; or answer isn't 5 long in a page call, 69 long in the explainer, or 1 long in the other calls.
 *       Nothing is written then either.
 *
 * What the caller owes: each pointer has its length's elements behind it (of an empty buffer it is not read), they are
 * aligned for their type, no buffer that is written (sets in finder_prepare and finder_update; table, columns, shifts,
 * route, answer) overlaps another buffer of the call, and no other thread writes any of them meanwhile. All else is answered
 * or refused. Lengths count elements, not bytes.
 */
#ifndef FINDER_H
#define FINDER_H

#include <stddef.h>
#include <stdint.h>

#ifdef __cplusplus
extern "C" {
#endif

enum {
    FINDER_EXACT = 0,         /* ways */
    FINDER_OCTAVE = 1,
    FINDER_WRITTEN = 2,       /* in the plain page and the router only */
    FINDER_NO_CALL = 255,     /* unknown way, or `answer` of the wrong length */
    FINDER_TABLE_LEN = 4096,  /* places of a theme table */
    FINDER_ANSWER_LEN = 5,    /* places of `answer` in a page call */
    FINDER_EXPLAIN_LEN = 69,  /* places of `answer` in the explainer */
    FINDER_ONE_LEN = 1        /* places of `answer` in the other calls: one number */
};

enum {                        /* the explainer's answer[0] */
    FINDER_LISTED = 0,
    FINDER_NO_SHIFT = 1,
    FINDER_NO_COLUMN = 2,
    FINDER_TOO_FEW = 3,
    FINDER_EMPTY = 4,
    FINDER_OUTSIDE = 5,
    FINDER_ABSENT = 6
};

enum {                        /* the explainer's answer[2] */
    FINDER_UNASKED = 0,
    FINDER_KEPT = 1,
    FINDER_DISMISSED = 2
};

enum {
    FINDER_FIRST_TRACK = 5    /* the place of the first note's track in the explainer's answer */
};

/* The refusal in a result other than 0 and 255. */
#define FINDER_NUMBER(result) ((int)((result) % 256))
#define FINDER_PLACE(result) ((size_t)((result) / 256))

/* Fills all n - 1 interval sets of the score. Bit d of set k, d = 0 to 11, is 0 where a pitch of the next column with a
 * pitch after column k lies d semitones above one of column k, octaves ignored; all else is 1 up to bit 11, and 0 above. So
 * the set is 4095 where column k has no pitch, or none follows. answer[0] is their summary. Refuses 1, 2, 3, 6. */
int64_t finder_prepare(const uint8_t *cells, size_t cells_len, size_t tracks, uint16_t *sets, size_t sets_len,
                       int64_t *answer, size_t answer_len);

/* Brings the sets up to date after one column was changed. `cells` is the score after the change, `column` the changed
 * column, and the sets are those that were right before. Rewrites the set of that column (column n has none) and the set
 * of the nearest earlier column with a pitch, if there is one; all other sets stay, wrong ones too. answer[0] is the
 * summary of the sets as they then are. From sets that were right before, both are what finder_prepare gives. For several
 * changed columns, make one change and one call after another; a score with more or fewer columns is prepared anew.
 * Refuses 1, 2, 3, 6, 7, 19. */
int64_t finder_update(const uint8_t *cells, size_t cells_len, size_t tracks, uint16_t column,
                      uint16_t *sets, size_t sets_len, int64_t *answer, size_t answer_len);

/* The question whether a theme occurs at all, exact or octave: answer[0] is 1 where the list of the quick page with these
 * sets has a pair, otherwise 0. With the score's own sets that is the full list. Where the theme has an interval that the
 * summary lacks, the answer is 0 without a search. The theme's table is left in `table`, whatever it held, where the answer
 * is 0 too. With sets that are no longer the score's own, the answer may be 0 where the theme stands: update them first. A
 * theme of one note, as someone begins to type, is refused 4: there is nothing to find yet. Refuses 1 to 8, 12. */
int64_t finder_occurs(const uint8_t *cells, size_t cells_len, size_t tracks,
                      const uint8_t *theme, size_t theme_len, uint8_t way,
                      const uint16_t *sets, size_t sets_len, uint16_t summary, uint32_t *table, size_t table_len,
                      int64_t *answer, size_t answer_len);

/* A page of the plain search, of any way. Refuses 1 to 5, 9, 10. */
int64_t finder_plain_page(const uint8_t *cells, size_t cells_len, size_t tracks,
                          const uint8_t *theme, size_t theme_len, uint8_t way, uint16_t column, int16_t shift,
                          uint16_t *columns, size_t columns_len, int16_t *shifts, size_t shifts_len,
                          int64_t *answer, size_t answer_len);

/* A page of the quick search, exact or octave: with the score's own sets the same pairs, with no more looks. With sets of
 * another score, the pairs at the columns that those sets make candidates; what the sets of columns without a pitch hold
 * does not matter. The theme's table is left in `table`, whatever it held. Refuses 1 to 10. */
int64_t finder_quick_page(const uint8_t *cells, size_t cells_len, size_t tracks,
                          const uint8_t *theme, size_t theme_len, uint8_t way, uint16_t column, int16_t shift,
                          const uint16_t *sets, size_t sets_len, uint32_t *table, size_t table_len,
                          uint16_t *columns, size_t columns_len, int16_t *shifts, size_t shifts_len,
                          int64_t *answer, size_t answer_len);

/* The explainer: why the theme is listed at `column` with `shift`, or is not, exact or octave; any column and any shift may
 * be asked about. The sets are the score's own, or any others: then they may dismiss the column of a listed pair, or keep
 * one where nothing is listed. A quick page with these sets lists the pair exactly where answer[0] is 0 and answer[2] is 1.
 * Nothing but `answer` is written. Refuses 1 to 7. */
int64_t finder_explain(const uint8_t *cells, size_t cells_len, size_t tracks,
                       const uint8_t *theme, size_t theme_len, uint8_t way, uint16_t column, int16_t shift,
                       const uint16_t *sets, size_t sets_len, int64_t *answer, size_t answer_len);

/* The router: who plays the theme at a listed pair, of any way. A route is a track, from 1, for each note, whose own cell
 * holds the note moved by the shift, in octave any cell of its class; note 1 in the pair's column, each further note in the
 * next column with a pitch. A change is two neighbouring notes in different tracks. Of all routes of the pair the one is
 * meant that has the fewest changes, and among those the one whose track numbers come first, compared from the first note.
 * So notes that stand in track 3, in 1 and 3, and in 1 have the route 3 1 1.
 * It is written into the first theme_len places of `route`; places behind them keep their contents. answer[0] is its
 * number of changes, 0 to theme_len - 1. Refuses 1 to 5, 13, 14. */
int64_t finder_route(const uint8_t *cells, size_t cells_len, size_t tracks,
                     const uint8_t *theme, size_t theme_len, uint8_t way, uint16_t column, int16_t shift,
                     uint8_t *route, size_t route_len, int64_t *answer, size_t answer_len);

#ifdef __cplusplus
}
#endif

#endif
