//! The route of a listed pair, from the request's words: all routes compared, or, where they are too many, the changes that are
//! left from each track on.

use super::Call;
use finder::{Pair, Refusal, Route};
use std::collections::BTreeMap;

impl Call {
    /// The route: the answer, and the lent buffer after it.
    pub fn route(&self, pair: Pair) -> (Result<u8, Refusal>, Vec<u8>) {
        let mut after = self.lent.route.clone();
        if let Err(r) = self.check_route(pair) {
            return (Err(r), after);
        }
        let route = self.routed(pair);
        after[..route.tracks.len()].copy_from_slice(&route.tracks);
        (Ok(route.changes), after)
    }

    /// The route of a listed pair. Where there are few, all are tried.
    pub fn routed(&self, pair: Pair) -> Route {
        let holders = self.holders(pair).expect("the pair is listed");
        let route = reckoned(&holders);
        if holders.iter().map(|tracks| tracks.len() as f64).product::<f64>() < 300.0 {
            assert_eq!(route, tried(&holders));
        }
        route
    }

    /// For each note of a listed pair the tracks, from 1, that have it in its column; none where the pair is not listed.
    pub fn holders(&self, pair: Pair) -> Option<Vec<Vec<u8>>> {
        let (lowest, highest) = self.shifts();
        let (j, shift) = (usize::from(pair.column), i32::from(pair.shift));
        if shift < lowest || shift > highest || j == 0 || j > self.n() || !self.has_pitch(j) {
            return None;
        }
        let places = self.onward(j);
        if places.len() < self.theme.len() {
            return None;
        }
        let of_note = |(k, p): (usize, &u8)| {
            let has = |track: &u8| self.sounds(k, usize::from(*track), i32::from(*p) + shift);
            (1..=self.tracks as u8).filter(has).collect::<Vec<u8>>()
        };
        let holders: Vec<Vec<u8>> = places.into_iter().zip(&self.theme).map(of_note).collect();
        holders.iter().all(|tracks| !tracks.is_empty()).then_some(holders)
    }
}

/// How many neighbouring notes are in different tracks.
pub fn changes(tracks: &[u8]) -> u8 {
    tracks.windows(2).filter(|two| two[0] != two[1]).count() as u8
}

/// All routes are made, and of those with the fewest changes the first is taken, compared from the first note.
pub fn tried(holders: &[Vec<u8>]) -> Route {
    let mut routes = vec![vec![]];
    for tracks in holders {
        let longer = |route: &Vec<u8>| tracks.iter().map(|t| [&route[..], &[*t]].concat()).collect::<Vec<_>>();
        routes = routes.iter().flat_map(longer).collect();
    }
    let (changes, tracks) = routes.into_iter().map(|tracks| (changes(&tracks), tracks)).min().unwrap();
    Route { tracks, changes }
}

/// From the last note to the first: the fewest changes that are left from each of its tracks on. Then from the first to the last:
/// the lowest track with which there are no more of them.
pub fn reckoned(holders: &[Vec<u8>]) -> Route {
    let mut ahead: Vec<BTreeMap<u8, usize>> = Vec::new();
    for tracks in holders.iter().rev() {
        let left = |t: &u8| match ahead.last() {
            None => 0,
            Some(next) => next.iter().map(|(u, left)| left + usize::from(u != t)).min().unwrap(),
        };
        ahead.push(tracks.iter().map(|t| (*t, left(t))).collect());
    }
    let mut tracks: Vec<u8> = Vec::new();
    for next in ahead.iter().rev() {
        let before = tracks.last().copied();
        let with = |u: u8, left: usize| left + usize::from(before.is_some_and(|t| t != u));
        let fewest = next.iter().map(|(u, left)| with(*u, *left)).min();
        tracks.push(*next.iter().find(|(u, left)| Some(with(**u, **left)) == fewest).unwrap().0);
    }
    Route { changes: changes(&tracks), tracks }
}
