//! Many random calls, long and short, valid and damaged, by the library and by a third finder: the same answers, and the
//! same contents of every lent buffer.

mod calls;
mod third;

use calls::{heard, Random};
use finder::{
    explain, occurs, pairs, plain_page, plain_pairs, prepare, quick_page, route, route_into, update, AnyWay, Bookmark, Pair,
    Prepared, Refusal, Summary,
};
use third::{summary_of, Call, Lent};

/// Each call that takes the way, against the third finder. How many pairs the last page has; none where it is refused.
fn same(call: &Call) -> Option<usize> {
    let Call { cells, tracks, theme, way, bookmark, summary, changed, lent } = call;
    let mut sets = lent.sets.clone();
    let answer = prepare(cells, *tracks, &mut sets);
    assert_eq!((answer, sets), call.prepare(), "prepare {call:?}");

    let mut sets = lent.sets.clone();
    let answer = update(cells, *tracks, *changed, &mut sets);
    assert_eq!((answer, sets), call.update(), "update {call:?}");

    let mut after = lent.clone();
    let answer = plain_page(cells, *tracks, theme, *way, *bookmark, &mut after.columns, &mut after.shifts);
    assert_eq!((answer, after), call.page(false), "plain {call:?}");
    let written = answer.ok().map(|page| page.written);

    let pair = Pair { column: bookmark.column, shift: bookmark.shift };
    let mut after = lent.route.clone();
    let answer = route_into(cells, *tracks, theme, *way, pair, &mut after);
    assert_eq!((answer, after), call.route(pair), "route {call:?}");
    let AnyWay::Moved(way) = *way else { return written };

    let mut after = lent.clone();
    let answer = occurs(cells, *tracks, theme, way, &after.sets, *summary, &mut after.table);
    assert_eq!((answer, after), call.occurs(), "question {call:?}");

    let answer = explain(cells, *tracks, theme, way, pair, &lent.sets);
    assert_eq!(answer, call.explain(pair), "explanation {call:?}");

    let mut after = lent.clone();
    let Lent { sets, table, columns, shifts, .. } = &mut after;
    let answer = quick_page(cells, *tracks, theme, way, *bookmark, sets, table, columns, shifts);
    assert_eq!((answer, after), call.page(true), "quick {call:?}");
    answer.ok().map(|page| page.written)
}

/// Page after page, and the iterators: the whole list, and the routes of some of its pairs.
fn same_list(call: &Call) -> Vec<(u16, i16)> {
    let Call { cells, tracks, theme, way, .. } = call;
    let mut whole = call.clone();
    whole.bookmark = way.first();
    let room = cells.len() / tracks * 255;
    whole.lent.columns = vec![0; room];
    whole.lent.shifts = vec![0; room];
    whole.lent.sets = whole.prepare().1;
    let (page, lent) = whole.page(false);
    let list: Vec<_> = lent.columns.into_iter().zip(lent.shifts).take(page.unwrap().written).collect();
    let mut all = plain_pairs(cells, *tracks, theme, *way).unwrap();
    let given: Vec<_> = all.by_ref().map(|p| (p.column, p.shift)).collect();
    assert_eq!(given, list);
    assert_eq!(all.looks(), u64::from(page.unwrap().looks));
    if let AnyWay::Moved(way) = *way {
        let mut all = pairs(cells, *tracks, theme, way).unwrap();
        let given: Vec<_> = all.by_ref().map(|p| (p.column, p.shift)).collect();
        assert_eq!(given, list);
        assert_eq!(all.looks(), u64::from(whole.page(true).0.unwrap().looks));
        // the question by the score's own sets is about this list
        let prepared = Prepared::new(cells, *tracks).unwrap();
        assert_eq!((Ok(prepared.summary()), prepared.sets().to_vec()), whole.prepare());
        assert_eq!(prepared.occurs(cells, *tracks, theme, way), Ok(!list.is_empty()));
    }

    for (column, shift) in list.iter().take(20) {
        let pair = Pair { column: *column, shift: *shift };
        assert_eq!(route(cells, *tracks, theme, *way, pair), Ok(call.routed(pair)), "{pair:?} {call:?}");
    }

    let room = call.lent.columns.len().min(3);
    let (mut at, mut read) = (way.first(), Vec::new());
    loop {
        let (mut columns, mut shifts) = (vec![0; room], vec![0; room]);
        let page = plain_page(cells, *tracks, theme, *way, at, &mut columns, &mut shifts).unwrap();
        read.extend(columns.into_iter().zip(shifts).take(page.written));
        at = page.next;
        if page.finished {
            break;
        }
    }
    assert_eq!(read, list);
    list
}

/// How many calls had what they are made for.
#[derive(Default, Debug)]
struct Met {
    /// pages with pairs, of moved tunes and of written ones
    moved: usize,
    written: usize,
    /// lists with a pair that reaches over a column without a pitch, of moved tunes and of written ones
    moved_over: usize,
    written_over: usize,
    /// bookmarks in such a column, with a pair behind
    bookmarks: usize,
    /// sets that make a candidate of a column from which too few are left
    too_few: usize,
    /// questions that are answered yes; no, as the summary lacks an interval; no, though there are candidates; and no, though
    /// the full list has a pair
    yes: usize,
    lacking: usize,
    candidates: usize,
    by_other_sets: usize,
}

impl Met {
    fn all(&mut self, call: &Call) {
        let pairs = same(call).unwrap();
        let list = same_list(call);
        let over = list.iter().any(|(j, _)| {
            let places = call.onward(usize::from(*j));
            places[places.len() - 1] - places[0] >= places.len()
        });
        let own_key = call.way == AnyWay::Written;
        if !own_key {
            self.question(call, &list);
        }
        let (with_pairs, with_over) =
            if own_key { (&mut self.written, &mut self.written_over) } else { (&mut self.moved, &mut self.moved_over) };
        *with_pairs += usize::from(pairs > 0);
        *with_over += usize::from(over);
        let heard = heard(&call.cells, call.tracks);
        self.bookmarks += usize::from(pairs > 0 && !heard.contains(&call.bookmark.column.into()));
        // the sets from a column on to the last one with a pitch, one for each interval of the theme
        let intervals = call.theme.len() - 1;
        self.too_few += usize::from(!own_key && heard.len() >= intervals && {
            let last = &heard[heard.len() - intervals..];
            last[intervals - 1] <= call.lent.sets.len()
                && last.iter().enumerate().all(|(i, k)| call.lent.sets[k - 1] >> call.interval(i) & 1 == 0)
        });
    }

    /// The same of the question, beside the full list.
    fn question(&mut self, call: &Call, list: &[(u16, i16)]) {
        let yes = call.occurs().0.unwrap();
        let lacking = (0..call.theme.len() - 1).any(|i| call.summary.0 >> call.interval(i) & 1 == 1);
        let candidate = (1..=call.lent.sets.len()).any(|j| call.sought(j, true).is_some());
        assert!(!yes || !lacking && !list.is_empty(), "{call:?}");
        self.yes += usize::from(yes);
        self.lacking += usize::from(lacking);
        self.candidates += usize::from(!yes && candidate);
        self.by_other_sets += usize::from(!yes && !list.is_empty());
    }
}

#[test]
fn short_scores() {
    let mut random = Random(0x9e37_79b9_7f4a_7c15);
    let mut met = Met::default();
    for _ in 0..40000 {
        met.all(&random.call(4, 12, 6));
    }
    let Met { moved, written, moved_over, written_over, bookmarks, too_few, yes, lacking, candidates, by_other_sets } = met;
    assert!(moved > 4000 && written > 1000, "{met:?}");
    assert!(moved_over > 1000 && written_over > 300 && bookmarks > 300 && too_few > 300, "{met:?}");
    assert!(yes > 5000 && lacking > 5000 && candidates > 1000 && by_other_sets > 200, "{met:?}");
}

#[test]
fn scores_within_all_limits() {
    let mut random = Random(0x1234_5678_9abc_def1);
    let mut met = Met::default();
    for _ in 0..1500 {
        met.all(&random.call(16, 150, 32));
    }
    let Met { moved, written, moved_over, written_over, .. } = met;
    assert!(moved > 250 && written > 50 && moved_over > 80 && written_over > 20, "{met:?}");
}

#[test]
fn longest_scores() {
    let mut random = Random(0xfeed_beef_cafe_0001);
    for round in 0..24 {
        let mut call = random.call(16, 2048, 32);
        if round % 3 == 0 {
            let (tracks, n) = ([1, 3, 16][round % 9 / 3], 2048);
            call.tracks = tracks;
            call.cells = random.bytes(n * tracks, 40, 9);
            random.silence(&mut call.cells, tracks, n);
            let m = 32.min(2 + round);
            if heard(&call.cells, tracks).len() >= m {
                call.theme = random.picked(&call.cells, tracks, m, call.way);
            }
            call.lent.sets = vec![0; n - 1];
            call.lent.sets = call.prepare().1;
        }
        assert!(same(&call).is_some());
    }
}

/// How many changed columns had what they are made for.
#[derive(Default, Debug)]
struct Changed {
    /// columns that have no pitch after the change, and columns that had none before it
    emptied: usize,
    filled: usize,
    /// those with an earlier column that has a pitch, with empty columns between the two
    over: usize,
    /// the last column
    last: usize,
    /// another summary than before
    summaries: usize,
}

#[test]
fn changed_columns() {
    let mut random = Random(0x0c0a_57ed_c01d_0003);
    let mut met = Changed::default();
    for _ in 0..40000 {
        let mut call = random.call(4, 12, 6);
        // sets that were right before, or any
        let right = !random.one_in(4);
        if right {
            (call.summary, call.lent.sets) = (call.prepare().0.unwrap(), call.prepare().1);
        }
        let before = call.clone();
        random.change(&mut call);
        let (answer, sets) = call.update();
        if right {
            assert_eq!((answer, &sets), (call.prepare().0, &call.prepare().1), "{call:?}");
        }
        assert_eq!((answer, sets), updated(&call), "{call:?}");

        let (was, is) = (heard(&before.cells, call.tracks), heard(&call.cells, call.tracks));
        let k = usize::from(call.changed);
        met.emptied += usize::from(was.contains(&k) && !is.contains(&k));
        met.filled += usize::from(!was.contains(&k) && is.contains(&k));
        met.over += usize::from(is.iter().any(|l| l + 1 < k) && k > 1 && !is.contains(&(k - 1)));
        met.last += usize::from(k == call.cells.len() / call.tracks);
        met.summaries += usize::from(right && answer != Ok(before.summary));
    }
    let Changed { emptied, filled, over, last, summaries } = met;
    assert!(emptied > 2000 && filled > 2000 && over > 1000 && last > 5000 && summaries > 5000, "{met:?}");
}

/// The update by the library: the answer, and the sets after it.
fn updated(call: &Call) -> (Result<Summary, Refusal>, Vec<u16>) {
    let mut sets = call.lent.sets.clone();
    (update(&call.cells, call.tracks, call.changed, &mut sets), sets)
}

#[test]
fn change_after_change() {
    let mut random = Random(0xc4a1_9e00_0b5e_0004);
    for round in 0..60 {
        let mut call = if round < 4 { random.call(16, 2048, 32) } else { random.call(16, 150, 32) };
        let mut prepared = Prepared::new(&call.cells, call.tracks).unwrap();
        for _ in 0..50 {
            random.change(&mut call);
            call.lent.sets = prepared.sets().to_vec();
            prepared.update(&call.cells, call.tracks, call.changed).unwrap();
            assert_eq!((Ok(prepared.summary()), prepared.sets().to_vec()), call.update(), "{call:?}");
            assert_eq!(prepared, Prepared::new(&call.cells, call.tracks).unwrap(), "{call:?}");
        }
        let mut fresh = call;
        fresh.lent.sets = prepared.sets().to_vec();
        assert_eq!((Ok(prepared.summary()), fresh.lent.sets.clone()), fresh.prepare());
        if let AnyWay::Moved(way) = fresh.way {
            fresh.summary = prepared.summary();
            assert_eq!(prepared.occurs(&fresh.cells, fresh.tracks, &fresh.theme, way), fresh.occurs().0);
        }
    }
}

#[test]
fn damaged_calls() {
    let mut random = Random(0x0dd0_1ead_5eed_0002);
    let (mut refused, mut numbers, mut unexplained, mut unrouted) = (0, [0; 20], [0; 8], [0; 15]);
    for _ in 0..60000 {
        let mut call = random.call(4, 12, 6);
        for _ in 0..random.from(1, 3) {
            random.damage(&mut call);
        }
        if random.one_in(3) {
            call.summary = summary_of(&call.lent.sets);
        }
        refused += usize::from(same(&call).is_none());
        for refusal in [call.check_update().err(), call.check_question().err()].into_iter().flatten() {
            numbers[usize::from(refusal.number)] += 1;
        }
        if let Err(refusal) = call.check_explanation() {
            unexplained[usize::from(refusal.number)] += 1;
        }
        let Bookmark { column, shift } = call.bookmark;
        if let Err(refusal) = call.check_route(Pair { column, shift }) {
            unrouted[usize::from(refusal.number)] += 1;
        }
    }
    assert!((20000..59000).contains(&refused), "{refused} refused");
    // each number of the update and of the question
    for number in [1, 2, 3, 4, 5, 6, 7, 8, 12, 19] {
        assert!(numbers[number] > 500, "{numbers:?}");
    }
    // and of the explainer
    assert!(unexplained[1..].iter().all(|many| *many > 500), "{unexplained:?}");
    // and of the router; of the damaged calls few have a bookmark that is a listed pair
    assert!(unrouted[1..6].iter().all(|many| *many > 500) && unrouted[13] > 10000 && unrouted[14] > 20, "{unrouted:?}");
}
