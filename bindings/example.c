/* How C calls the finder: prepares a small score, lists a theme's pairs page by page, explains why some are listed and
 * others are not, asks who plays one, asks whether themes occur at all, and changes a column. */
#include <finder.h>
#include <stdio.h>
#include <string.h>

/* Whether a theme of two notes occurs, octaves ignored, in a score of five columns and two tracks: 1 or 0, or -1 where the
 * call was refused. */
static int64_t occurs(const uint8_t *cells, const uint8_t *theme, const uint16_t *sets, int64_t summary)
{
    static uint32_t table[FINDER_TABLE_LEN];
    int64_t answer;
    int64_t result = finder_occurs(cells, 10, 2, theme, 2, FINDER_OCTAVE, sets, 4, (uint16_t)summary, table, FINDER_TABLE_LEN,
                                   &answer, FINDER_ONE_LEN);
    return result == 0 ? answer : -1;
}

/* Asks whether two themes occur at all, the second before and after a change of the score; whether all went well. */
static int question(const uint8_t *cells, const uint8_t *theme, uint16_t *sets, int64_t summary)
{
    /* the score with another third column, and a theme that stands only there */
    static const uint8_t changed[] = {60, 67, 62, 69, 63, 255, 65, 72, 255, 67};
    static const uint8_t tritone[] = {69, 63};

    if (occurs(cells, theme, sets, summary) != 1 || occurs(cells, tritone, sets, summary) != 0)
        return 0;
    /* the sets of columns 2 and 3 are made anew; 3385 is the new summary */
    if (finder_update(changed, sizeof changed, 2, 3, sets, 4, &summary, FINDER_ONE_LEN) != 0
        || sets[1] != 4029 || sets[2] != 3579 || summary != 3385)
        return 0;
    if (occurs(changed, tritone, sets, summary) != 1)
        return 0;
    printf("69 63 occurs only after the change\n");
    return 1;
}

/* Whether the first numbers of an explanation are these, and the tracks of a theme of two notes with nothing behind them. */
static int told(const int64_t *why, int64_t reason, int64_t note, int64_t sifted, int64_t interval, int64_t size,
                int64_t track1, int64_t track2)
{
    const int64_t expected[] = {reason, note, sifted, interval, size, track1, track2};
    int64_t i;

    for (i = 0; i < FINDER_EXPLAIN_LEN; i++)
        if (why[i] != (i < 7 ? expected[i] : 0))
            return 0;
    return 1;
}

/* Whether a call with `places` places of `why` is turned away with this result, and all of them are as they were. */
static int turned_away(const uint8_t *cells, const uint8_t *theme, uint8_t way, const uint16_t *sets, size_t sets_len,
                       size_t places, int64_t expected)
{
    int64_t why[FINDER_EXPLAIN_LEN + 1];
    size_t i;

    for (i = 0; i <= FINDER_EXPLAIN_LEN; i++)
        why[i] = -77;
    if (finder_explain(cells, 10, 2, theme, 2, way, 2, 2, sets, sets_len, why, places) != expected)
        return 0;
    for (i = 0; i <= FINDER_EXPLAIN_LEN; i++)
        if (why[i] != -77)
            return 0;
    return 1;
}

/* Why pairs of the theme are listed or not, with the score's own sets and with others; whether all went well. */
static int explanation(const uint8_t *cells, const uint8_t *theme, const uint16_t *sets)
{
    static const uint16_t others[] = {4095, 4095, 4095, 4095}, bad[] = {4095, 4096, 4095, 4095};
    int64_t why[FINDER_EXPLAIN_LEN];

    /* 69 and 64 stand at columns 2 and 3 */
    if (finder_explain(cells, 10, 2, theme, 2, FINDER_EXACT, 2, 2, sets, 4, why, FINDER_EXPLAIN_LEN) != 0
        || !told(why, FINDER_LISTED, 0, FINDER_KEPT, 0, 0, 2, 1))
        return 0;
    printf("column 2, shift 2: tracks %d %d\n", (int)why[FINDER_FIRST_TRACK], (int)why[FINDER_FIRST_TRACK + 1]);
    /* 59 does not stand at column 4, and no interval of 7 semitones leads there from column 3 */
    if (finder_explain(cells, 10, 2, theme, 2, FINDER_EXACT, 3, -3, sets, 4, why, FINDER_EXPLAIN_LEN) != 0
        || !told(why, FINDER_ABSENT, 2, FINDER_DISMISSED, 1, 7, 0, 0))
        return 0;
    printf("column 3, shift -3: note %d is absent\n", (int)why[1]);
    /* by sets of another score the first pair's column is dismissed, though the pair is listed */
    if (finder_explain(cells, 10, 2, theme, 2, FINDER_EXACT, 2, 2, others, 4, why, FINDER_EXPLAIN_LEN) != 0
        || !told(why, FINDER_LISTED, 0, FINDER_DISMISSED, 1, 7, 2, 1))
        return 0;
    /* a bookmark's shift, column 0, and the last column */
    if (finder_explain(cells, 10, 2, theme, 2, FINDER_OCTAVE, 2, 12, sets, 4, why, FINDER_EXPLAIN_LEN) != 0
        || !told(why, FINDER_NO_SHIFT, 0, FINDER_KEPT, 0, 0, 0, 0)
        || finder_explain(cells, 10, 2, theme, 2, FINDER_OCTAVE, 0, 2, sets, 4, why, FINDER_EXPLAIN_LEN) != 0
        || !told(why, FINDER_NO_COLUMN, 0, FINDER_UNASKED, 0, 0, 0, 0)
        || finder_explain(cells, 10, 2, theme, 2, FINDER_OCTAVE, 5, 2, sets, 4, why, FINDER_EXPLAIN_LEN) != 0
        || !told(why, FINDER_TOO_FEW, 0, FINDER_UNASKED, 0, 0, 0, 0))
        return 0;
    return turned_away(cells, theme, FINDER_EXACT, sets, 3, FINDER_EXPLAIN_LEN, 6)
        && turned_away(cells, theme, FINDER_OCTAVE, bad, 4, FINDER_EXPLAIN_LEN, 7 + 256)
        && turned_away(cells, theme, FINDER_WRITTEN, sets, 4, FINDER_EXPLAIN_LEN, FINDER_NO_CALL)
        && turned_away(cells, theme, FINDER_EXACT, bad, 3, FINDER_EXPLAIN_LEN - 1, FINDER_NO_CALL)
        && turned_away(cells, theme, FINDER_EXACT, bad, 3, FINDER_EXPLAIN_LEN + 1, FINDER_NO_CALL);
}

/* Whether a call for the route of 60 62 64 gives this result, and leaves these bytes in a buffer of which so many places
 * are lent, and this answer; each was 99 and -77 before. */
static int routed(uint8_t way, uint16_t column, int16_t shift, size_t lent, size_t places, int64_t expected,
                  const uint8_t *left, int64_t changes)
{
    /* three tracks: 60 in the third, 62 in the first and the third, 64 in the first; octaves lower in the second */
    static const uint8_t cells[] = {255, 24, 60, 62, 26, 62, 255, 255, 255, 64, 28, 255};
    static const uint8_t theme[] = {60, 62, 64};
    uint8_t route[4] = {99, 99, 99, 99};
    int64_t answer[2] = {-77, -77};

    return finder_route(cells, sizeof cells, 3, theme, sizeof theme, way, column, shift, route, lent, answer, places)
            == expected
        && memcmp(route, left, sizeof route) == 0 && answer[0] == changes && answer[1] == -77;
}

/* Who plays the theme, with the fewest changes of track; whether all went well. */
static int tracks(void)
{
    static const uint8_t exact[] = {3, 1, 1, 99}, octave[] = {2, 2, 2, 99}, as_it_was[] = {99, 99, 99, 99};

    if (!routed(FINDER_EXACT, 1, 0, 4, FINDER_ONE_LEN, 0, exact, 1)
        || !routed(FINDER_WRITTEN, 1, 0, 3, FINDER_ONE_LEN, 0, exact, 1)
        || !routed(FINDER_OCTAVE, 1, 0, 4, FINDER_ONE_LEN, 0, octave, 0))
        return 0;
    printf("60 62 64: tracks %d %d %d\n", exact[0], exact[1], exact[2]);
    /* a pair that is not listed, whatever is lent; then a buffer that is too short; and what is no call */
    return routed(FINDER_EXACT, 1, 1, 2, FINDER_ONE_LEN, 13, as_it_was, -77)
        && routed(FINDER_WRITTEN, 0, 0, 4, FINDER_ONE_LEN, 13, as_it_was, -77)
        && routed(FINDER_EXACT, 1, 0, 2, FINDER_ONE_LEN, 14, as_it_was, -77)
        && routed(3, 1, 0, 4, FINDER_ONE_LEN, FINDER_NO_CALL, as_it_was, -77)
        && routed(FINDER_EXACT, 1, 0, 4, 2, FINDER_NO_CALL, as_it_was, -77)
        && routed(FINDER_EXACT, 1, 0, 4, 0, FINDER_NO_CALL, as_it_was, -77);
}

int main(void)
{
    /* five columns of two tracks; 255 is a rest */
    static const uint8_t cells[] = {60, 67, 62, 69, 64, 255, 65, 72, 255, 67};
    static const uint8_t theme[] = {67, 62};
    static const uint16_t expected[] = {1, 2, 4};
    static const uint8_t gap[] = {60, 255, 62}, gap_theme[] = {60, 62};
    static uint32_t table[FINDER_TABLE_LEN];
    uint16_t sets[4], columns[2];
    int16_t shifts[2];
    int64_t answer[FINDER_ANSWER_LEN] = {0, 1, -127, 0, 0}, summary, why[FINDER_EXPLAIN_LEN];
    int64_t looks = 0, i;
    size_t pairs = 0;

    int64_t result = finder_prepare(cells, sizeof cells, 2, sets, 4, &summary, FINDER_ONE_LEN);
    if (result != 0 || summary != 3193)
        return 1;
    while (answer[3] == 0) {
        result = finder_quick_page(cells, sizeof cells, 2, theme, sizeof theme, FINDER_EXACT, (uint16_t)answer[1],
                                   (int16_t)answer[2], sets, 4, table, FINDER_TABLE_LEN, columns, 2, shifts, 2, answer, 5);
        if (result != 0) {
            fprintf(stderr, "refused %d at %zu\n", FINDER_NUMBER(result), FINDER_PLACE(result));
            return 1;
        }
        for (i = 0; i < answer[0]; i++, pairs++) {
            printf("column %d, shift %d\n", columns[i], shifts[i]);
            if (pairs >= 3 || columns[i] != expected[pairs])
                return 1;
        }
        looks += answer[4];
    }
    printf("%zu pairs, %lld looks\n", pairs, (long long)looks);
    if (pairs != 3 || looks != 6)
        return 1;

    /* the tune in its own key: a plain page, from the bookmark (1, 0) */
    result = finder_plain_page(cells, sizeof cells, 2, theme, sizeof theme, FINDER_WRITTEN, 1, 0, columns, 2, shifts, 2,
                               answer, 5);
    if (result != 0 || answer[0] != 1 || columns[0] != 1 || shifts[0] != 0 || answer[3] != 1 || answer[4] != 0)
        return 1;
    printf("as written: column %d\n", columns[0]);

    if (!explanation(cells, theme, sets))
        return 1;

    if (!tracks())
        return 1;

    if (!question(cells, theme, sets, summary))
        return 1;

    /* one track with a column of rests: it is passed over */
    result = finder_prepare(gap, sizeof gap, 1, sets, 2, &summary, FINDER_ONE_LEN);
    if (result != 0 || sets[0] != 4091 || sets[1] != 4095 || summary != 4091)
        return 1;
    result = finder_plain_page(gap, sizeof gap, 1, gap_theme, sizeof gap_theme, FINDER_EXACT, 1, -127, columns, 2, shifts, 2,
                               answer, 5);
    if (result != 0 || answer[0] != 1 || columns[0] != 1 || shifts[0] != 0 || answer[3] != 1 || answer[4] != 1)
        return 1;
    printf("over a rest: column %d, shift %d\n", columns[0], shifts[0]);
    result = finder_explain(gap, sizeof gap, 1, gap_theme, sizeof gap_theme, FINDER_EXACT, 1, 0, sets, 2, why,
                            FINDER_EXPLAIN_LEN);
    if (result != 0 || !told(why, FINDER_LISTED, 0, FINDER_KEPT, 0, 0, 1, 1))
        return 1;

    /* an unknown way, and one that the quick page does not take */
    return finder_plain_page(cells, sizeof cells, 2, theme, sizeof theme, 3, 1, 0, columns, 2, shifts, 2, answer, 5)
            == FINDER_NO_CALL
        && finder_quick_page(cells, sizeof cells, 2, theme, sizeof theme, FINDER_WRITTEN, 1, 0, sets, 4, table,
                             FINDER_TABLE_LEN, columns, 2, shifts, 2, answer, 5) == FINDER_NO_CALL
        ? 0 : 1;
}
