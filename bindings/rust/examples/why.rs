//! `why FILE COLUMN SHIFT`: why the theme of a lister input is listed at a column with a shift, or is not, in one line of text
//! or two. `bin/why` builds it and runs it.

mod input;

use finder::{AnyWay, Explanation, Pair, Prepared, Way};
use input::Input;
use std::process::ExitCode;

const USAGE: &str = "usage: why FILE COLUMN SHIFT

FILE is an input of the lister: a theme line and then a line for each column of the score.
COLUMN is counted from 1; SHIFT is score minus theme, -127 to 127 for exact and 0 to 11 for octave.";

fn main() -> ExitCode {
    input::run("why", USAGE, explain)
}

/// The explanation by the score's own sets.
fn explain(input: &Input, pair: Pair) -> Result<Explanation, String> {
    let way = match input.way {
        AnyWay::Moved(way) => way,
        // the tune in its own key: the exact pairs with shift 0
        AnyWay::Written if pair.shift == 0 => Way::Exact,
        AnyWay::Written => {
            let why = "its theme is written, which has shift 0 alone; only exact and octave can be explained";
            return Err(format!("{}: {why}", input.name));
        }
    };
    let prepared = Prepared::new(&input.cells, input.tracks).map_err(|refusal| refusal.to_string())?;
    prepared.explain(&input.cells, input.tracks, &input.theme, way, pair).map_err(|refusal| refusal.to_string())
}
