//! Damaged tables: the core refuses with 24 exactly those that the independent
//! check refuses, and changes nothing; the others it goes on with as the
//! independent implementation does. And tables of wrong lengths.

use compare::damage::{changes, damage};
use compare::pair::{Difference, Pair};
use compare::settings::Settings;
use compare::subject::Told;
use level_archive::{ANSWER_BYTES, Archive, TABLE_BYTES};
use plain::random::Random;
use plain::stream::{Stream, Style};
use plain::{Answer, table};

/// How many damaged tables are made at each moment of a list.
const AT_A_MOMENT: usize = 40;
/// How many events go into a damaged table that is still well formed.
const EVENTS: usize = 8;

/// The first of the kept places, which stand last in a table.
const FIRST_KEPT: usize = TABLE_BYTES - 1_024;

/// What became of the damaged tables.
#[derive(Default, Debug)]
struct Fates {
    refused: u64,
    went_on: u64,
    /// Of those refused, the ones that were damaged in kept places alone.
    kept: u64,
}

/// The core's answer to a table that it must leave alone.
fn left_alone(table: &[u8], event: &[u8]) -> Told {
    let mut core = Archive::over(table.to_vec());
    let answer = core.step_bytes(event).to_bytes();
    assert!(core.as_bytes() == table, "the table was changed");
    answer
}

/// A table that isn't well formed, or isn't one: 24 and 23 from both calls.
fn is_refused(table: &[u8], events: &[Vec<u8>], number: u8) {
    for event in events {
        let number = if event.len() == 32 { number } else { 23 };
        assert_eq!(left_alone(table, event), Answer::only(number).to_bytes());
        let mut core = Archive::over(table.to_vec());
        let mut answer = [0xa5; ANSWER_BYTES];
        if event.len() == 32 {
            assert_eq!(core.run_into(event, &mut answer), 1);
            assert_eq!(answer, Answer::only(number).to_bytes());
        }
        assert!(core.as_bytes() == table, "the table was changed");
    }
}

/// A well-formed table: both go on with it alike.
fn goes_on(table: &[u8], events: &[Vec<u8>]) -> Result<(), Difference> {
    let mut pair = Pair::over(Archive::over(table.to_vec())).expect("it is well formed");
    pair.compare_states()?;
    events.iter().try_for_each(|event| pair.step(event).and(pair.compare_states()))
}

/// Damages a table, and looks at what both make of it.
fn try_one(random: &mut Random, table: &[u8], events: &[Vec<u8>], fates: &mut Fates) {
    let mut damaged = table.to_vec();
    damage(random, &mut damaged);
    let formed = table::well_formed(&damaged);
    let number = if formed { 10 } else { 24 };
    let core = left_alone(&damaged, &[0; 32]);
    assert_eq!(core, Answer::only(number).to_bytes(), "{:?}", changes(table, &damaged));
    if !formed {
        fates.refused += 1;
        fates.kept += u64::from(damaged[..FIRST_KEPT] == table[..FIRST_KEPT]);
        return is_refused(&damaged, &events[..1], 24);
    }
    fates.went_on += 1;
    if let Err(difference) = goes_on(&damaged, events) {
        let changes = changes(table, &damaged);
        panic!("{difference}\nthe damage: {changes:?}\nthe events: {events:?}");
    }
}

/// Takes a list of events, and damages its table every now and then.
fn try_list(seed: u64, fates: &mut Fates) {
    let mut random = Random::new(seed);
    let (sites, partitions) = ((seed % 4 + 1) as usize, (seed / 4 % 4 + 1) as usize);
    let style = Style { sites, partitions, ..Style::any(&mut random, 1500) };
    let mut core = Archive::new(sites as u32, partitions as u32).expect("1 to 4");
    let mut stream = Stream::new(seed, style);
    let mut place = 0;
    while place < style.length {
        let quiet = random.between(1, 300);
        for _ in 0..quiet {
            let _ = core.step_bytes(stream.next_event());
        }
        let events: Vec<_> = (0..EVENTS).map(|_| stream.next_event().to_vec()).collect();
        for _ in 0..AT_A_MOMENT {
            try_one(&mut random, core.as_bytes(), &events, fates);
        }
        for event in &events {
            let _ = core.step_bytes(event);
        }
        place += quiet + EVENTS;
    }
}

#[test]
fn damaged_tables_are_refused_or_gone_on_with() {
    let settings = Settings::of("damaged", 320);
    let mut fates = Fates::default();
    for seed in settings.seeds() {
        println!("LEVELS_SEED={seed} LEVELS_RUNS=1 shows the last of these lists");
        try_list(seed, &mut fates);
    }
    println!("{fates:?}");
    if settings.runs >= 320 {
        assert!(fates.refused >= 30_000 && fates.went_on >= 30_000);
        assert!(fates.refused + fates.went_on >= 100_000);
        assert!(fates.kept >= 10_000);
    }
}

#[test]
fn a_table_of_another_length_gives_23() {
    let table = Archive::new(4, 4).expect("4 and 4").into_bytes();
    let events = [vec![0; 32], vec![1; 32], vec![0; 31], vec![], vec![2; 64]];
    for length in [0, 1, 2, 128, 4096, TABLE_BYTES - 1, TABLE_BYTES + 1, 2 * TABLE_BYTES] {
        let mut bytes = table.to_vec();
        bytes.resize(length, 0);
        is_refused(&bytes, &events, 23);
        assert!(!table::well_formed(&bytes));
        let refused = Archive::setup(bytes.clone(), 2, 2).expect_err("a wrong length");
        assert_eq!((refused.refusal().number(), refused.into_bytes()), (23, bytes));
    }
}

#[test]
fn an_event_of_another_length_gives_23_before_24() {
    let ill = vec![0; TABLE_BYTES];
    is_refused(&ill, &[vec![0; 31], vec![0; 33], vec![], vec![0; 32]], 24);
}
