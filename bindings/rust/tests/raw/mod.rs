//! The exported explainer and router, with what the safe functions do not let through: any number for a way, and an `answer`
//! of any length. Each test uses some.
#![allow(dead_code)]

extern "C" {
    fn finder_explain(
        cells: *const u8, cells_len: usize, tracks: usize, theme: *const u8, theme_len: usize, way: u8, column: u16, shift: i16,
        sets: *const u16, sets_len: usize, answer: *mut i64, answer_len: usize,
    ) -> i64;
    fn finder_route(
        cells: *const u8, cells_len: usize, tracks: usize, theme: *const u8, theme_len: usize, way: u8, column: u16, shift: i16,
        route: *mut u8, route_len: usize, answer: *mut i64, answer_len: usize,
    ) -> i64;
}

/// How many places the explainer's answer has.
pub const EXPLAIN_LEN: usize = 69;

/// What `answer` holds before a call, in as many places as it has.
pub fn unanswered(places: usize) -> Vec<i64> {
    vec![-77; places]
}

/// What an explanation or a route is asked about, and with which sets, of which a route knows nothing.
#[derive(Clone, Copy)]
pub struct Asked<'a> {
    pub cells: &'a [u8],
    pub tracks: usize,
    pub theme: &'a [u8],
    pub way: u8,
    pub column: u16,
    pub shift: i16,
    pub sets: &'a [u16],
}

impl Asked<'_> {
    /// The result, and the answer after it, which has so many places. All else that is lent is as it was.
    pub fn explain(&self, places: usize) -> (i64, Vec<i64>) {
        let Asked { tracks, way, column, shift, .. } = *self;
        // copies of its own, so that a call which wrote into them would be seen
        let (mut cells, mut theme, mut sets) = (self.cells.to_vec(), self.theme.to_vec(), self.sets.to_vec());
        let mut answer = unanswered(places);
        // Safety: each pointer and length is of a vector of this call alone.
        let result = unsafe {
            finder_explain(
                cells.as_mut_ptr(), cells.len(), tracks, theme.as_mut_ptr(), theme.len(), way, column, shift,
                sets.as_mut_ptr(), sets.len(), answer.as_mut_ptr(), answer.len(),
            )
        };
        assert_eq!((&cells[..], &theme[..], &sets[..]), (self.cells, self.theme, self.sets));
        (result, answer)
    }

    /// The result of a route into a buffer that holds this before, and the buffer and the answer after it, which has so many
    /// places. All else that is lent is as it was.
    pub fn route(&self, before: &[u8], places: usize) -> (i64, Vec<u8>, Vec<i64>) {
        let Asked { tracks, way, column, shift, .. } = *self;
        let (mut cells, mut theme) = (self.cells.to_vec(), self.theme.to_vec());
        let (mut route, mut answer) = (before.to_vec(), unanswered(places));
        // Safety: each pointer and length is of a vector of this call alone.
        let result = unsafe {
            finder_route(
                cells.as_mut_ptr(), cells.len(), tracks, theme.as_mut_ptr(), theme.len(), way, column, shift,
                route.as_mut_ptr(), route.len(), answer.as_mut_ptr(), answer.len(),
            )
        };
        assert_eq!((&cells[..], &theme[..]), (self.cells, self.theme));
        (result, route, answer)
    }
}
