//! The explanation of every pair that can be asked about, and of many that cannot be listed: by the library and by a third
//! finder, and beside the lists of both searches.

mod calls;
mod raw;
mod third;

use calls::Random;
use finder::{
    explain, plain_pairs, quick_page, AnyWay, Explanation, Pair, Prepared, Reason, Sifted, Way, MOST_COLUMNS, TABLE_LEN,
};
use raw::{Asked, EXPLAIN_LEN};
use std::collections::HashSet;
use third::Call;

const WAYS: [Way; 2] = [Way::Exact, Way::Octave];

/// Every column of a score of n, the one in front and two behind, and the highest numbers.
fn columns(n: usize) -> impl Iterator<Item = u16> {
    (0..=n as u16 + 2).chain([2048, 2049, u16::MAX])
}

/// Every shift of the way, some on both sides, and the ends of what a number holds.
fn shifts(way: Way) -> impl Iterator<Item = i16> {
    let (low, high) = (*way.shifts().start() - 3, *way.shifts().end() + 3);
    (low..=high).chain([-300, 256, i16::MIN, i16::MAX])
}

/// The 69 numbers of an explanation.
fn numbers(explanation: &Explanation) -> Vec<i64> {
    let mut numbers = vec![0; EXPLAIN_LEN];
    (numbers[0], numbers[1]) = match &explanation.reason {
        Reason::Listed { tracks } => {
            for (i, track) in tracks.iter().enumerate() {
                numbers[5 + i] = i64::from(*track);
            }
            (0, 0)
        }
        Reason::NoShift { .. } => (1, 0),
        Reason::NoColumn => (2, 0),
        Reason::TooFew { .. } => (3, 0),
        Reason::Empty { .. } => (4, 0),
        Reason::Outside { note } => (5, i64::from(*note)),
        Reason::Absent { note, .. } => (6, i64::from(*note)),
    };
    (numbers[2], numbers[3], numbers[4]) = match explanation.sifted {
        None => (0, 0, 0),
        Some(Sifted::Kept { .. }) => (1, 0, 0),
        Some(Sifted::Dismissed { interval, size, .. }) => (2, i64::from(interval), i64::from(size)),
    };
    numbers
}

/// The pair by the library, which the third finder explains in the same way.
fn same(call: &Call, way: Way, pair: Pair) -> Explanation {
    let Call { cells, tracks, theme, lent, .. } = call;
    let explanation = explain(cells, *tracks, theme, way, pair, &lent.sets).unwrap();
    assert_eq!(Ok(&explanation), call.explain(pair).as_ref(), "{pair:?} {call:?}");
    let Pair { column, shift } = pair;
    let asked = Asked { cells, tracks: *tracks, theme, way: u8::from(way == Way::Octave), column, shift, sets: &lent.sets };
    assert_eq!(asked.explain(EXPLAIN_LEN), (0, numbers(&explanation)), "{pair:?} {call:?}");
    explanation
}

/// The pairs of the plain list, and those of the quick list by the lent sets.
fn lists(call: &Call, way: Way) -> (HashSet<Pair>, HashSet<Pair>) {
    let Call { cells, tracks, theme, lent, .. } = call;
    let plain = plain_pairs(cells, *tracks, theme, way).unwrap().collect();
    let room = cells.len() / tracks * 255;
    let (mut columns, mut shifts) = (vec![0; room], vec![0; room]);
    let first = way.first();
    let mut table = [0; TABLE_LEN];
    let page =
        quick_page(cells, *tracks, theme, way, first, &lent.sets, &mut table, &mut columns, &mut shifts).unwrap();
    assert!(page.finished);
    let quick = columns.into_iter().zip(shifts).take(page.written);
    (plain, quick.map(|(column, shift)| Pair { column, shift }).collect())
}

/// How many explanations were of each kind.
#[derive(Default, Debug)]
struct Met {
    /// by the reason's number
    reasons: [usize; 7],
    /// a first note that fails, and a later one
    first: usize,
    later: usize,
    /// a listed pair whose column the sets dismiss, and one that is not listed though they keep its column
    dismissed: usize,
    kept: usize,
    /// dismissed by an interval after the first
    late_interval: usize,
    /// a shift that is none, at a column that the sets are asked about
    no_shift_sifted: usize,
    /// a listed pair that reaches over a column without a pitch, and one that has a note above track 1
    over: usize,
    tracks: usize,
}

impl Met {
    fn add(&mut self, call: &Call, pair: Pair, explanation: &Explanation) {
        let numbers = numbers(explanation);
        self.reasons[numbers[0] as usize] += 1;
        self.first += usize::from(numbers[1] == 1);
        self.later += usize::from(numbers[1] > 1);
        let listed = numbers[0] == 0;
        self.dismissed += usize::from(listed && numbers[2] == 2);
        self.kept += usize::from(!listed && numbers[2] == 1);
        self.late_interval += usize::from(numbers[3] > 1);
        self.no_shift_sifted += usize::from(numbers[0] == 1 && numbers[2] > 0);
        if listed {
            let places = call.onward(pair.column.into());
            self.over += usize::from(places[places.len() - 1] - places[0] >= places.len());
            self.tracks += usize::from(numbers[5..].iter().any(|track| *track > 1));
        }
    }
}

/// Every pair of a call, by its lent sets, beside the two lists.
fn every_pair(call: &mut Call, met: &mut Met) {
    for way in WAYS {
        call.way = AnyWay::Moved(way);
        let (plain, quick) = lists(call, way);
        for column in columns(call.cells.len() / call.tracks) {
            for shift in shifts(way) {
                let pair = Pair { column, shift };
                let explanation = same(call, way, pair);
                let listed = matches!(explanation.reason, Reason::Listed { .. });
                let kept = matches!(explanation.sifted, Some(Sifted::Kept { .. }));
                assert_eq!(listed, plain.contains(&pair), "{pair:?} {call:?}");
                assert_eq!(listed && kept, quick.contains(&pair), "{pair:?} {call:?}");
                met.add(call, pair, &explanation);
            }
        }
    }
}

#[test]
fn every_pair_of_short_scores() {
    let mut random = Random(0x3e4f_0001_77aa_1235);
    let mut met = Met::default();
    for _ in 0..600 {
        let mut call = random.call(3, 12, 4);
        // sets of this score, of another or of none
        every_pair(&mut call, &mut met);
        // sets of another score with as many columns
        let n = call.cells.len() / call.tracks;
        let other = random.bytes(2 * n, 8, 4);
        call.lent.sets = Prepared::new(&other, 2).unwrap().sets().to_vec();
        every_pair(&mut call, &mut met);
    }
    let Met { reasons, first, later, dismissed, kept, late_interval, no_shift_sifted, over, tracks } = met;
    assert!(reasons.iter().all(|many| *many > 500), "{met:?}");
    assert!(first > 10000 && later > 3000 && dismissed > 100 && kept > 10000, "{met:?}");
    assert!(late_interval > 3000 && no_shift_sifted > 500 && over > 50 && tracks > 200, "{met:?}");
}

#[test]
fn own_sets_keep_what_is_listed() {
    let mut random = Random(0x0b5e_55ed_1157_0007);
    let mut listed = 0;
    for _ in 0..2000 {
        let mut call = random.call(4, 12, 6);
        let prepared = Prepared::new(&call.cells, call.tracks).unwrap();
        call.lent.sets = prepared.sets().to_vec();
        for way in WAYS {
            call.way = AnyWay::Moved(way);
            for pair in plain_pairs(&call.cells, call.tracks, &call.theme, way).unwrap() {
                let explanation = same(&call, way, pair);
                assert_eq!(prepared.explain(&call.cells, call.tracks, &call.theme, way, pair).as_ref(), Ok(&explanation));
                assert!(matches!(explanation.reason, Reason::Listed { .. }), "{pair:?} {call:?}");
                assert_eq!(explanation.sifted, Some(Sifted::Kept { column: pair.column }), "{pair:?} {call:?}");
                listed += 1;
            }
        }
    }
    assert!(listed > 1000, "{listed}");
}

#[test]
fn pairs_of_long_scores() {
    let mut random = Random(0x10f6_5c04_e500_0009);
    for round in 0..40 {
        let mut call = random.call(16, if round < 12 { MOST_COLUMNS } else { 150 }, 32);
        let n = call.cells.len() / call.tracks;
        for way in WAYS {
            call.way = AnyWay::Moved(way);
            let listed: Vec<Pair> = plain_pairs(&call.cells, call.tracks, &call.theme, way).unwrap().take(40).collect();
            for Pair { column, shift } in listed {
                for near in [-1, 0, 1] {
                    same(&call, way, Pair { column, shift: shift + near });
                    same(&call, way, Pair { column: column.saturating_add_signed(near), shift });
                }
            }
            for _ in 0..200 {
                let column = random.from(0, n + 1) as u16;
                let shift = random.from(0, 258) as i16 - 129;
                same(&call, way, Pair { column, shift: if way == Way::Exact { shift } else { shift.rem_euclid(14) - 1 } });
            }
        }
    }
}
