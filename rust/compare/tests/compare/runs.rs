//! Lawful, steered and damaged events into the core and the independent
//! implementation: all answers and states are the same, demand 3 holds of the
//! core's answers, and enough of interest happens.

use compare::follow::Follow;
use compare::pair::{Difference, Pair};
use compare::report::report;
use compare::settings::Settings;
use compare::tally::Tally;
use compare::watch::Watch;
use level_archive::Archive;
use plain::code;
use plain::random::Random;
use plain::stream::{Stream, Style};

/// A list's style: all settings in turn, all else by the seed.
fn style(seed: u64) -> Style {
    let mut random = Random::new(seed);
    let length = random.between(200, 4500);
    let (sites, partitions) = ((seed % 4 + 1) as usize, (seed / 4 % 4 + 1) as usize);
    Style { sites, partitions, ..Style::any(&mut random, length) }
}

/// Follows one list in a table that another list has left behind. Gives the
/// table, and the number of chains.
fn follow(
    seed: u64,
    table: Box<[u8]>,
    tally: &mut Tally,
    log: &mut Vec<Vec<u8>>,
) -> Result<(Box<[u8]>, u64), Difference> {
    let style = style(seed);
    let core = Archive::setup(table, style.sites as u32, style.partitions as u32);
    let pair = Pair::over(core.expect("the numbers are 1 to 4")).expect("an empty table");
    let mut stream = Stream::new(seed, style);
    let mut follow = Follow::new(pair, Watch::new(tally), seed);
    for _ in 0..style.length {
        let event = stream.next_event();
        log.push(event.to_vec());
        follow.take(event)?;
    }
    follow.finish()?;
    let chains = follow.watch.chains_of_three();
    Ok((follow.pair.into_subject().into_bytes(), chains))
}

#[test]
fn answers_and_states_are_the_same() {
    let settings = Settings::of("runs", 1200);
    let mut tally = Tally::default();
    let mut chains = 0;
    let mut table = Archive::new(1, 1).expect("1 and 1").into_bytes();
    for seed in settings.seeds() {
        let mut log = Vec::new();
        match follow(seed, table, &mut tally, &mut log) {
            Ok((left, number)) => (table, chains) = (left, chains + number),
            Err(difference) => {
                let Style { sites, partitions, .. } = style(seed);
                let start = || Archive::new(sites as u32, partitions as u32).expect("lawful");
                panic!("{}", report(seed, &difference, start, &log));
            }
        }
    }
    println!("{} events, {chains} readings at the end of a chain of three gauges", tally.events());
    if settings.runs >= 1200 {
        much_happened(&tally, chains);
    }
}

/// A share in thousandths of all events.
fn share(tally: &Tally, name: &str, number: u64, least: u64) {
    let share = 1000 * number / tally.events();
    println!("{name}: {number}, {share} in a thousand");
    assert!(share >= least, "{name}: fewer than {least} in a thousand");
}

fn much_happened(tally: &Tally, chains: u64) {
    for number in (0..=3).chain(10..=23) {
        println!("{number:2} {}", tally.of_number(number));
    }
    assert!(tally.events() >= 2_000_000);
    assert_eq!(tally.rare(100), [], "codes with answers that hardly came");
    for number in [10, 23] {
        assert!(tally.of_number(number) >= 1000, "too few of {number}");
    }
    for (name, code) in [("GET", code::GET), ("PUT", code::PUT), ("READ", code::READ)] {
        let waits = tally.waits(code);
        println!("{name} waited for sites 0 to 3: {waits:?}");
        assert!(waits.iter().all(|number| *number >= 100), "{name} hardly waited for a site");
    }
    share(tally, "served GETs", tally.of(code::GET, 1), 40);
    share(tally, "PUTs done", tally.of(code::PUT, 0), 12);
    share(tally, "page READs that showed a reading", tally.of(code::READ, 1), 30);
    share(tally, "pages finished", tally.of(code::END, 0), 9);
    share(tally, "waits", tally.of_number(3), 35);
    share(tally, "deliveries", tally.of(code::DELIVER, 0), 45);
    share(tally, "channels full", tally.of_number(21), 18);
    share(tally, "nodes full", tally.of_number(22), 30);
    share(tally, "chains of three gauges", chains, 40);
}
