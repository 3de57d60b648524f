//! The library against Rust that does the same work: same inputs, same run, medians of many rounds.
//!
//! Times are nanoseconds a column, of processor time. Each sample is a batch of calls, the library's and the Rust's in
//! turn, so that a slow moment of the machine falls on both. The answers and every lent buffer are compared before
//! anything is timed.
//!
//! There are two kinds of scores: those in which every column has a pitch, and those in which a tenth of the columns have
//! none. `finder-bench full` times the first kind alone. Preparation and pages come first, then the question and the update,
//! and then the explainer and the router, whose times are nanoseconds a call. `finder-bench explainer` times the explainer alone,
//! `finder-bench router` the router.

mod explanations;
mod pages;
mod questions;
mod routes;
mod rust_finder;
mod scores;
mod timing;
mod updates;

use explanations::Explanations;
use pages::Timed;
use questions::Questions;
use routes::Routes;
use scores::Kind;
use updates::Updates;

fn main() {
    let args: Vec<String> = std::env::args().skip(1).collect();
    let with_gaps = match args.iter().map(String::as_str).collect::<Vec<_>>()[..] {
        [] => true,
        ["full"] => false,
        ["explainer"] => return say_explanations(true),
        ["router"] => return say_routes(true),
        _ => {
            eprintln!("finder-bench [full | explainer | router]: times scores without and with empty columns, or those without");
            eprintln!("alone; or, for both, the explainer or the router alone");
            std::process::exit(2);
        }
    };
    println!("## Scores in which every column has a pitch\n");
    let full = Timed::new(Kind::Full);
    full.say(None);
    full.say_fill();
    full.say_growth();
    full.say_looks();
    if with_gaps {
        println!("\n## Scores in which a tenth of the columns have none\n");
        let gaps = Timed::new(Kind::Gaps);
        gaps.say(Some(&full));
        gaps.say_looks();
    }
    println!("\n## The question and the update, scores in which every column has a pitch\n");
    say_questions_and_updates(Kind::Full);
    if with_gaps {
        println!("\n## The question and the update, scores in which a tenth of the columns have none\n");
        say_questions_and_updates(Kind::Gaps);
    }
    println!();
    say_explanations(with_gaps);
    println!();
    say_routes(with_gaps);
}

fn say_questions_and_updates(kind: Kind) {
    Questions::new(kind).say();
    Updates::new(kind).say();
}

fn say_explanations(with_gaps: bool) {
    println!("## The explainer, scores in which every column has a pitch\n");
    Explanations::new(Kind::Full).say();
    if with_gaps {
        println!("\n## The explainer, scores in which a tenth of the columns have none\n");
        Explanations::new(Kind::Gaps).say();
    }
}

fn say_routes(with_gaps: bool) {
    println!("## The router, scores in which every column has a pitch\n");
    Routes::new(Kind::Full).say();
    if with_gaps {
        println!("\n## The router, scores in which a tenth of the columns have none\n");
        Routes::new(Kind::Gaps).say();
    }
}
