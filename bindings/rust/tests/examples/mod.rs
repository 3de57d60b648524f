//! Scores to try by hand, with their sets. Each test uses some of them.
#![allow(dead_code)]

use finder::Summary;

/// Five columns of two tracks. The sets have the intervals 2, 7 and 9; 2 and 7; 1 and 8; 2 and 7.
pub const K: [u8; 10] = [60, 67, 62, 69, 64, 255, 65, 72, 255, 67];
pub const K_SETS: [u16; 4] = [3451, 3963, 3837, 3963];

/// 4095 less the weights of 1, 2, 7, 8 and 9: 2 + 4 + 128 + 256 + 512.
pub const K_SUMMARY: Summary = Summary(3193);

/// A rest.
pub const R: u8 = 255;

/// One track that rests before its first pitch, between two of them and behind its last.
pub const GAPS: [u8; 7] = [R, 60, R, R, 62, 64, R];
pub const GAPS_SETS: [u16; 6] = [4095, 4091, 4095, 4095, 4091, 4095];

/// Twelve bits with a 0 for each of these intervals.
pub fn having(intervals: &[u16]) -> u16 {
    4095 - intervals.iter().map(|d| 1 << d).sum::<u16>()
}
