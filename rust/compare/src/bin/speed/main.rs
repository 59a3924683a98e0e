//! How fast the proved archive is, beside the independent implementation: the
//! same streams, an almost empty and a full table, and GETs on full nodes, in one run.
//!
//! `cargo run --release --bin speed`, with `-- --quick` for a short one. The two
//! bench programs are measured as well where they have been built.

mod figures;
mod files;
mod rounds;
mod rows;
mod scene;

use std::env;
use std::process::ExitCode;

use figures::Figures;
use rows::Row;
use scene::Scene;

/// How much is measured.
struct Effort {
    /// Events of a stream.
    events: usize,
    /// Rounds, of which the median counts.
    rounds: usize,
    /// Events of the file that the bench programs read.
    file: usize,
}

const USUAL: Effort = Effort { events: 50_000, rounds: 11, file: 1_000_000 };
const QUICK: Effort = Effort { events: 5_000, rounds: 5, file: 100_000 };

fn main() -> ExitCode {
    let words: Vec<String> = env::args().skip(1).collect();
    let effort = match words.iter().map(String::as_str).collect::<Vec<_>>()[..] {
        [] => USUAL,
        ["--quick"] => QUICK,
        _ => {
            eprintln!("usage: speed [--quick]");
            return ExitCode::FAILURE;
        }
    };
    println!("{} events a stream, median of {} rounds", effort.events, effort.rounds);
    let empty = measure(Scene::almost_empty(effort.events), &effort, rows::all);
    let full = measure(Scene::full(effort.events), &effort, rows::all);
    let gets = measure(Scene::gets(effort.events), &effort, rows::unchecked);
    figures::print(&empty, &full, &gets);
    match files::measure(effort.file, 7) {
        Ok(times) => files::print(&times),
        Err(reason) => println!("bench programs: not measured ({reason})"),
    }
    ExitCode::SUCCESS
}

/// Some rows on one scene.
fn measure(scene: Scene, effort: &Effort, rows: fn(&Scene) -> Vec<Row>) -> Figures {
    println!("{scene}");
    rows::agree(&scene);
    Figures::new(scene.name, rounds::medians(&scene, effort.rounds, rows), effort.events)
}
