//! The figures, their ratios and the targets, printed.

use std::time::Duration;

use crate::rows::{CHECK, NAMES, PLAIN_CHECK, PLAIN_STEP, RUN, STEP, STRUCTS};

/// The nanoseconds that an event takes in each row of a scene.
pub struct Figures {
    name: &'static str,
    nanoseconds: Vec<f64>,
}

impl Figures {
    /// From the time of each row for a number of events.
    pub fn new(name: &'static str, times: Vec<Duration>, events: usize) -> Figures {
        let each = |time: Duration| time.as_nanos() as f64 / events as f64;
        Figures { name, nanoseconds: times.into_iter().map(each).collect() }
    }

    /// How many times as fast a row is as another.
    fn ratio(&self, row: usize, other: usize) -> f64 {
        self.nanoseconds[other] / self.nanoseconds[row]
    }
}

/// Prints the rows of both scenes and those of the GETs, then the ratios and the targets.
pub fn print(empty: &Figures, full: &Figures, gets: &Figures) {
    print_rows(&NAMES, &[empty, full]);
    print_rows(&[NAMES[RUN], NAMES[STRUCTS]], &[gets]);
    println!();
    ratio("checked step / plain with the check", STEP, PLAIN_STEP, &[(empty, 0.8), (full, 0.85)]);
    ratio("run / over structs", RUN, STRUCTS, &[(empty, 0.5), (full, 0.5)]);
    ratio("run / checked step", RUN, STEP, &[(full, 10.0)]);
    println!("{:38}{:>8.2}{:>8.2}", "check: core / plain", check(empty), check(full));
    println!("{:38}{:>16.2}", "GETs: run / over structs", gets.ratio(0, 1));
}

/// Prints some rows, with a column for each scene.
fn print_rows(names: &[&str], scenes: &[&Figures]) {
    let heads: String = scenes.iter().map(|figures| format!("{:>24}", figures.name)).collect();
    let units = format!("{:>14}{:>10}", "events/s", "ns").repeat(scenes.len());
    println!("\n{:34}{heads}\n{:34}{units}", "", "");
    for (row, name) in names.iter().enumerate() {
        let columns = scenes.iter().map(|figures| {
            let each = figures.nanoseconds[row];
            format!("{:>14}{each:>10.1}", grouped((1e9 / each) as u64))
        });
        println!("{name:34}{}", columns.collect::<String>());
    }
}

fn check(figures: &Figures) -> f64 {
    figures.ratio(CHECK, PLAIN_CHECK)
}

/// A ratio on some scenes, each with its target.
fn ratio(name: &str, row: usize, other: usize, scenes: &[(&Figures, f64)]) {
    let ratios = scenes.iter().map(|(figures, _)| figures.ratio(row, other));
    let numbers: String = ratios.clone().map(|ratio| format!("{ratio:>8.2}")).collect();
    let targets: Vec<String> =
        scenes.iter().map(|(figures, least)| format!("{least} ({})", figures.name)).collect();
    let met = verdict(ratios.zip(scenes).all(|(ratio, (_, least))| ratio >= *least));
    println!("{name:38}{numbers:>16}   target {}: {met}", targets.join(", "));
}

/// Whether a target is met, in a word.
pub fn verdict(met: bool) -> &'static str {
    if met { "met" } else { "MISSED" }
}

/// A number with its thousands apart.
fn grouped(number: u64) -> String {
    let digits = number.to_string();
    let places = digits.char_indices();
    let comma = |place: usize| place > 0 && (digits.len() - place) % 3 == 0;
    places.fold(String::new(), |text, (place, digit)| {
        text + if comma(place) { "," } else { "" } + &digit.to_string()
    })
}
