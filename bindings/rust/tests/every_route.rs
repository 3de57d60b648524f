//! Routes of many pairs, listed or not, by the library and by a third router: all scores in which few notes are held by any of
//! few tracks, and many up to the limits.

mod calls;
mod raw;
mod third;

use calls::Random;
use finder::{explain, plain_pairs, route, route_into, AnyWay, Pair, Prepared, Reason, Refusal, Route, Way, MOST_COLUMNS};
use raw::Asked;
use std::collections::HashSet;
use third::routing::{changes, reckoned, tried};
use third::Call;

const WAYS: [AnyWay; 3] = [AnyWay::Moved(Way::Exact), AnyWay::Moved(Way::Octave), AnyWay::Written];

/// The number of a way in the exported call.
fn number(way: AnyWay) -> u8 {
    WAYS.iter().position(|each| *each == way).unwrap() as u8
}

/// A score with a theme, and a pair at which each note is held by given tracks: bit t of its set is 1 where track t + 1 has it.
struct Made {
    cells: Vec<u8>,
    tracks: usize,
    theme: Vec<u8>,
    way: AnyWay,
    pair: Pair,
    holders: Vec<Vec<u8>>,
}

impl Random {
    /// Sometimes some columns without a pitch.
    fn gap(&mut self, cells: &mut Vec<u8>, tracks: usize) {
        if self.one_in(4) {
            let many = self.from(1, 3);
            cells.resize(cells.len() + many * tracks, 255);
        }
    }

    /// The score, in which the pair may begin behind other columns, and after which others may come.
    fn made(&mut self, tracks: usize, sets: &[u32], way: AnyWay) -> Made {
        let theme: Vec<u8> = sets.iter().map(|_| self.from(40, 80) as u8).collect();
        let shift = match way {
            AnyWay::Moved(Way::Exact) => self.from(0, 80) as i16 - 40,
            AnyWay::Moved(Way::Octave) => self.from(0, 11) as i16,
            AnyWay::Written => 0,
        };
        let before = self.from(0, 3) * tracks;
        let mut cells = self.bytes(before, 128, 2);
        self.gap(&mut cells, tracks);
        let column = (cells.len() / tracks + 1) as u16;
        for (set, p) in sets.iter().zip(&theme) {
            let note = i16::from(*p) + shift;
            for t in 0..tracks {
                let octaves = self.from(0, 4) as i16 * 12 - 24;
                cells.push(match (set >> t & 1 == 1, way) {
                    (true, AnyWay::Moved(Way::Octave)) if (0..128).contains(&(note + octaves)) => note + octaves,
                    (true, _) => note,
                    (false, _) if self.one_in(3) => 255,
                    // an octave away it is not held, but in octave
                    (false, AnyWay::Moved(Way::Octave)) => (note + self.from(1, 11) as i16) % 128,
                    (false, _) => (note + self.from(1, 127) as i16) % 128,
                } as u8);
            }
            self.gap(&mut cells, tracks);
        }
        let after = self.from(0, 2) * tracks;
        cells.extend(self.bytes(after, 128, 2));
        let of = |set: &u32| (1..=tracks as u8).filter(|t| set >> (t - 1) & 1 == 1).collect();
        Made { cells, tracks, theme, way, pair: Pair { column, shift }, holders: sets.iter().map(of).collect() }
    }
}

impl Made {
    /// The sets are those of the tracks that hold each note.
    fn is_as_said(&self) -> bool {
        let call = self.call();
        call.holders(self.pair).as_ref() == Some(&self.holders)
    }

    fn call(&self) -> Call {
        let mut call = Random(1).call(1, 1, 2);
        (call.cells, call.tracks, call.theme, call.way) = (self.cells.clone(), self.tracks, self.theme.clone(), self.way);
        call
    }

    /// By the safe functions and by the exported call the route is this one.
    fn has_route(&self, expected: &Route) {
        let Made { cells, tracks, theme, way, pair, holders } = self;
        assert_eq!(route(cells, *tracks, theme, *way, *pair).as_ref(), Ok(expected), "{holders:?}");
        let asked = Asked { cells, tracks: *tracks, theme, way: number(*way), column: pair.column, shift: pair.shift, sets: &[] };
        let before = vec![200; theme.len() + 2];
        let after = [&expected.tracks[..], &[200, 200]].concat();
        assert_eq!(asked.route(&before, 1), (0, after, vec![i64::from(expected.changes)]), "{holders:?}");
    }
}

/// Every row of so many sets that are not empty.
fn all_sets(tracks: usize, notes: usize) -> impl Iterator<Item = Vec<u32>> {
    let sets = (1 << tracks) - 1;
    (0..usize::pow(sets, notes as u32)).map(move |row| {
        (0..notes).map(|i| (row / sets.pow(i as u32) % sets) as u32 + 1).collect()
    })
}

/// How many routes are of the kinds that a hasty router would miss.
#[derive(Default, Debug)]
struct Met {
    all: usize,
    /// not the lowest track at each note
    not_lowest: usize,
    /// not that of one who stays as long as he can, and then takes the lowest track
    not_staying: usize,
    /// of the routes with as few changes not the one that stays as long as it can
    not_late: usize,
    /// a track that is left and comes again
    again: usize,
    /// by number of changes: none, one, more
    changes: [usize; 3],
}

impl Met {
    fn add(&mut self, holders: &[Vec<u8>], route: &Route) {
        let tracks = &route.tracks;
        self.all += 1;
        let lowest = holders.iter().map(|held| held[0]);
        self.not_lowest += usize::from(!lowest.eq(tracks.iter().copied()));
        let staying = |first: u8| {
            holders[1..].iter().fold(vec![first], |mut so_far, held| {
                let last = so_far[so_far.len() - 1];
                so_far.push(if held.contains(&last) { last } else { held[0] });
                so_far
            })
        };
        self.not_staying += usize::from(staying(holders[0][0]) != *tracks);
        let stays = |i: usize| tracks[i] == tracks[i - 1] || !holders[i].contains(&tracks[i - 1]);
        self.not_late += usize::from(!(1..tracks.len()).all(stays));
        let runs: Vec<u8> = tracks.iter().enumerate().filter(|(i, t)| *i == 0 || tracks[i - 1] != **t).map(|(_, t)| *t).collect();
        self.again += usize::from(runs.iter().collect::<HashSet<_>>().len() < runs.len());
        self.changes[usize::from(route.changes.min(2))] += 1;
    }
}

#[test]
fn every_way_to_hold_few_notes_by_few_tracks() {
    let mut random = Random(0x0707_e5ed_0000_0001);
    let mut met = Met::default();
    for (tracks, most) in [(1, 5), (2, 7), (3, 5), (4, 4)] {
        for notes in 2..=most {
            for sets in all_sets(tracks, notes) {
                let way = WAYS[random.from(0, 2)];
                let made = random.made(tracks, &sets, way);
                let expected = tried(&made.holders);
                assert_eq!(expected, reckoned(&made.holders));
                made.has_route(&expected);
                met.add(&made.holders, &expected);
            }
        }
    }
    let Met { all, not_lowest, not_staying, not_late, again, changes } = met;
    assert!(all > 70000 && not_lowest > 40000 && not_staying > 20000 && not_late > 2000 && again > 2000, "{met:?}");
    assert!(changes.iter().all(|many| *many > 5000), "{met:?}");
}

#[test]
fn the_scores_that_are_made_are_as_they_are_said() {
    let mut random = Random(0x0707_e5ed_0000_0002);
    for round in 0..3000 {
        let (tracks, notes) = (random.from(1, 16), random.from(2, 32));
        let sets: Vec<u32> = (0..notes).map(|_| random.from(1, (1 << tracks) - 1) as u32).collect();
        assert!(random.made(tracks, &sets, WAYS[round % 3]).is_as_said());
    }
}

#[test]
fn notes_held_by_many_tracks_up_to_the_limits() {
    let mut random = Random(0x0707_e5ed_0000_0003);
    let mut met = Met::default();
    for round in 0..30000 {
        let (tracks, notes) = (random.from(1, 16), random.from(2, 32));
        // a note is seldom held, or mostly; with a chance that a track goes on
        let (chance, keeps) = (random.from(1, 6), random.from(1, 8));
        let mut held = vec![false; tracks];
        let mut set = || loop {
            for t in &mut held {
                if random.one_in(keeps) {
                    *t = random.one_in(chance);
                }
            }
            let set = held.iter().enumerate().map(|(t, held)| u32::from(*held) << t).sum::<u32>();
            if set > 0 {
                return set;
            }
        };
        let sets: Vec<u32> = (0..notes).map(|_| set()).collect();
        let made = random.made(tracks, &sets, WAYS[round % 3]);
        let expected = reckoned(&made.holders);
        made.has_route(&expected);
        met.add(&made.holders, &expected);
    }
    let Met { all, not_lowest, not_staying, not_late, again, changes } = met;
    assert!(all == 30000 && not_lowest > 10000 && not_staying > 10000 && not_late > 3000 && again > 3000, "{met:?}");
    assert!(changes.iter().all(|many| *many > 1000), "{met:?}");
}

/// The pair by the library and by the third router, into buffers that are long enough, longer and too short.
fn same(call: &mut Call, pair: Pair) -> Result<u8, Refusal> {
    let m = call.theme.len();
    let answers = [m, m + 3, m - 1, 0].map(|places| {
        call.lent.route = vec![200; places];
        let mut after = call.lent.route.clone();
        let answer = route_into(&call.cells, call.tracks, &call.theme, call.way, pair, &mut after);
        assert_eq!((answer, after), call.route(pair), "{pair:?} {call:?}");
        answer
    });
    let shorter = answers[0].and(Err(Refusal { number: 14, place: 0 }));
    assert_eq!(answers[1..], [answers[0], shorter, shorter]);
    answers[0]
}

#[test]
fn every_pair_of_short_scores() {
    let mut random = Random(0x0707_e5ed_0000_0004);
    let (mut listed, mut not_listed) = ([0; 3], [0; 3]);
    for _ in 0..1500 {
        let mut call = random.call(4, 12, 4);
        let n = call.cells.len() / call.tracks;
        let prepared = Prepared::new(&call.cells, call.tracks).unwrap();
        for way in WAYS {
            call.way = way;
            let list: HashSet<Pair> = plain_pairs(&call.cells, call.tracks, &call.theme, way).unwrap().collect();
            for column in (0..=n as u16 + 2).chain([2048, 2049, u16::MAX]) {
                for shift in (-130..=130).chain([-300, 256, i16::MIN, i16::MAX]) {
                    let pair = Pair { column, shift };
                    match same(&mut call, pair) {
                        Ok(changes) => {
                            assert!(list.contains(&pair), "{pair:?} {call:?}");
                            listed[usize::from(number(way))] += 1;
                            no_more_than_lowest(&call, &prepared, pair, changes);
                        }
                        Err(Refusal { number: 13, place: 0 }) => {
                            assert!(!list.contains(&pair), "{pair:?} {call:?}");
                            not_listed[usize::from(number(way))] += 1;
                        }
                        Err(refusal) => panic!("{refusal} {pair:?} {call:?}"),
                    }
                }
            }
        }
    }
    assert!(listed[0] > 500 && listed[1] > 500 && listed[2] > 100, "{listed:?}");
    assert!(not_listed.iter().all(|many| *many > 100000), "{not_listed:?}");
}

/// The lowest track of each note, which the explainer names, is a route too.
fn no_more_than_lowest(call: &Call, prepared: &Prepared, pair: Pair, least: u8) {
    let way = match call.way {
        AnyWay::Moved(way) => way,
        AnyWay::Written => Way::Exact,
    };
    let explained = explain(&call.cells, call.tracks, &call.theme, way, pair, prepared.sets()).unwrap();
    let Reason::Listed { tracks } = explained.reason else { panic!("{explained} {pair:?} {call:?}") };
    assert!(least <= changes(&tracks), "{pair:?} {call:?}");
}

#[test]
fn pairs_of_long_scores() {
    let mut random = Random(0x0707_e5ed_0000_0005);
    let mut listed = 0;
    for round in 0..60 {
        let mut call = random.call(16, if round < 12 { MOST_COLUMNS } else { 150 }, 32);
        let n = call.cells.len() / call.tracks;
        for way in WAYS {
            call.way = way;
            let pairs: Vec<Pair> = plain_pairs(&call.cells, call.tracks, &call.theme, way).unwrap().take(40).collect();
            for Pair { column, shift } in pairs {
                for near in [-1, 0, 1] {
                    listed += usize::from(same(&mut call, Pair { column, shift: shift + near }).is_ok());
                    listed += usize::from(same(&mut call, Pair { column: column.saturating_add_signed(near), shift }).is_ok());
                }
            }
            for _ in 0..100 {
                let pair = Pair { column: random.from(0, n + 1) as u16, shift: random.from(0, 258) as i16 - 129 };
                let _ = same(&mut call, pair);
            }
        }
    }
    assert!(listed > 1000, "{listed}");
}
