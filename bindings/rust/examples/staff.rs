//! `staff FILE COLUMN SHIFT`: who plays the theme of a lister input at a column with a shift, as a picture in text. Each track
//! has a line, and `*` marks the notes of the route with the fewest changes of track. `bin/staff` builds it and runs it.

mod input;

use finder::{route, Pair};
use input::Input;
use std::process::ExitCode;

const USAGE: &str = "usage: staff FILE COLUMN SHIFT

FILE is an input of the lister: a theme line and then a line for each column of the score.
COLUMN and SHIFT are those of a place that the lister lists.";

/// How many columns go side by side, so that a line has less than 80 characters. What is left comes below, as on a page of music.
const ABREAST: usize = 14;

fn main() -> ExitCode {
    input::run("staff", USAGE, draw)
}

/// The tune with one column before it and one behind, and below it the pair, the tracks and how often they change.
fn draw(input: &Input, pair: Pair) -> Result<String, String> {
    let Input { cells, tracks, theme, .. } = input;
    let route = route(cells, *tracks, theme, input.way, pair).map_err(|refusal| format!("{}: {refusal}", input.name))?;
    let columns: Vec<&[u8]> = cells.chunks_exact(*tracks).collect();
    // the column of each note, counted from 0
    let first = usize::from(pair.column) - 1;
    let heard = (first..columns.len()).filter(|k| columns[*k].iter().any(|cell| *cell < 128));
    let played: Vec<usize> = heard.take(theme.len()).collect();
    let shown: Vec<usize> = (first.saturating_sub(1)..columns.len().min(played[theme.len() - 1] + 2)).collect();

    let mut picture = String::new();
    for line in shown.chunks(ABREAST) {
        picture += &row("column", line.iter().map(|k| ((k + 1).to_string(), false)));
        for t in 0..*tracks {
            let cell = |k: &usize| match columns[*k][t] {
                255 => (".".to_string(), false),
                pitch => (pitch.to_string(), played.iter().zip(&route.tracks).any(|note| note == (k, &(t as u8 + 1)))),
            };
            picture += &row(&format!("track {}", t + 1), line.iter().map(cell));
        }
        if line.last() != shown.last() {
            picture += "\n";
        }
    }
    Ok(format!("{picture}column {}, shift {}: {route}", pair.column, pair.shift))
}

/// A line of the picture: its name, and what each column has in it, marked or not.
fn row(name: &str, fields: impl Iterator<Item = (String, bool)>) -> String {
    let fields: String = fields.map(|(text, marked)| format!("{text:>4}{}", if marked { '*' } else { ' ' })).collect();
    format!("{name:8}{}\n", fields.trim_end())
}
