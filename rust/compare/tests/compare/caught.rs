//! The comparison can fail: a core with a fault is caught, whether the fault is
//! in an answer or in a byte of the table, and so is a breach of demand 3.

use compare::pair::Pair;
use compare::report::{check, report};
use compare::subject::{Subject, Told};
use compare::tally::Tally;
use compare::watch::Watch;
use level_archive::{ANSWER_BYTES, Archive, EVENT_BYTES, TABLE_BYTES};
use plain::stream::{Stream, Style};
use plain::table::{kept_part, partition_part, session_part};
use plain::{Answer, code};

#[derive(Clone, Copy, PartialEq, Debug)]
enum Fault {
    None,
    /// A bit of an answer that shows a reading.
    Shown(usize),
    /// A bit of a wait.
    Wait(usize),
    /// A wait told as nothing recorded.
    WaitAsNothing,
    /// A bit of the table.
    Table(usize),
    /// `run` says that it answered one event more.
    OneMore,
    /// A record is stored by events of this code, and no place is kept for it.
    Forgets(u8),
    /// A delivered record is kept as the newest, though it may be older.
    KeepsLast,
}

/// The first of the kept places, which stand last in a table.
const FIRST_KEPT: usize = TABLE_BYTES - 1_024;

/// The core, with a fault from some event on.
struct Faulty {
    core: Archive,
    fault: Fault,
    left: usize,
}

impl Faulty {
    fn new(fault: Fault, left: usize) -> Faulty {
        Faulty { core: Archive::new(3, 2).expect("3 and 2"), fault, left }
    }

    /// Turns an answer or the table.
    fn turn(&mut self, told: &mut Told) {
        self.left = self.left.saturating_sub(1);
        match self.fault {
            _ if self.left > 0 => (),
            Fault::Shown(at) if told[0] == 1 => told[at] ^= 1,
            Fault::Wait(at) if told[0] == 3 => told[at] ^= 1,
            Fault::WaitAsNothing if told[0] == 3 => told[0] = 2,
            Fault::Table(at) => {
                let mut bytes = self.core.as_bytes().to_vec();
                bytes[at] ^= 1;
                self.core = Archive::over(bytes.into());
                self.fault = Fault::None;
            }
            _ => (),
        }
    }

    /// Turns the kept places after an event that was done.
    fn turn_kept(&mut self, event: &[u8], before: &[u8]) {
        let mut bytes = self.core.as_bytes().to_vec();
        match self.fault {
            _ if self.left > 0 => return,
            Fault::Forgets(code) if event[0] == code => {
                bytes[FIRST_KEPT..].copy_from_slice(before);
            }
            Fault::KeepsLast if event[0] == code::DELIVER => {
                let (site, partition) = (event[1] as usize, event[2] as usize);
                let node = partition_part(site, partition).0.start;
                if let Some(last) = (bytes[node + 40] as usize).checked_sub(1) {
                    let key = bytes[node + 64 + 56 * last] as usize;
                    bytes[kept_part(site, partition).start + key] = last as u8 + 1;
                }
            }
            _ => return,
        }
        self.core = Archive::over(bytes.into());
    }
}

impl Subject for Faulty {
    fn step(&mut self, event: &[u8]) -> Told {
        let before = self.core.as_bytes()[FIRST_KEPT..].to_vec();
        let mut told = self.core.step_bytes(event).to_bytes();
        self.turn(&mut told);
        if told[0] == 0 {
            self.turn_kept(event, &before);
        }
        told
    }

    fn run(&mut self, events: &[u8], answers: &mut [u8]) -> usize {
        let mut number = 0;
        for (event, answer) in events.chunks(EVENT_BYTES).zip(answers.chunks_mut(ANSWER_BYTES)) {
            answer.copy_from_slice(&self.step(event));
            number += 1;
        }
        number + usize::from(self.fault == Fault::OneMore)
    }

    fn table(&self) -> &[u8] {
        self.core.table()
    }
}

/// A list that fills the table with a bit of everything.
fn list(length: usize) -> Vec<Vec<u8>> {
    let style = Style { sites: 3, partitions: 2, length, fill: 60, damage: 20, lengths: true };
    let mut stream = Stream::new(3, style);
    (0..length).map(|_| stream.next_event().to_vec()).collect()
}

#[test]
fn the_core_without_a_fault_passes() {
    assert_eq!(check(|| Faulty::new(Fault::None, 0), &list(1500)), Ok(()));
}

/// The first byte of a channel in which messages wait after some events.
fn busy_channel(events: &[Vec<u8>]) -> usize {
    let mut core = Archive::new(3, 2).expect("3 and 2");
    events.iter().for_each(|event| assert!(core.step_bytes(event).number() < 24));
    let channels = (0..6).map(|number| partition_part(number / 2, number % 2).1.start);
    let busy = channels.into_iter().find(|channel| core.as_bytes()[channel + 1] > 0);
    busy.expect("a message waits somewhere")
}

#[test]
fn every_fault_is_caught() {
    let events = list(1500);
    let (node, _) = partition_part(1, 1);
    let mut faults = vec![Fault::WaitAsNothing, Fault::OneMore];
    // Number, source, quality, level and stamp.
    faults.extend([0, 1, 2, 4, 8].map(Fault::Shown));
    // The site that is waited for and the stamp needed, and what stays zero.
    faults.extend([1, 8, 2, 4].map(Fault::Wait));
    // Clock, entry, and of the first record quality, level, stamp and entry.
    faults.extend([0, 8, 66, 68, 72, 80].map(|at| Fault::Table(node.start + at)));
    // Kept places: of a key of the node's partition, and of another's.
    faults.extend([1, 2].map(|key| Fault::Table(kept_part(1, 1).start + key)));
    faults.extend([Fault::Forgets(code::PUT), Fault::Forgets(code::DELIVER), Fault::KeepsLast]);
    // A channel's front and its number of messages.
    faults.extend([0, 1].map(|at| Fault::Table(busy_channel(&events[..700]) + at)));
    // Whether a session is open, and its vector.
    faults.extend([0, 32].map(|at| Fault::Table(session_part(0).start + at)));
    for fault in faults {
        let caught = check(|| Faulty::new(fault, 700), &events);
        let place = caught.expect_err(&format!("{fault:?} is not caught")).place;
        assert!(place >= 700, "{fault:?} is caught at {place}");
    }
}

#[test]
fn a_report_has_the_seed_and_a_short_list() {
    let start = || Faulty::new(Fault::Shown(8), 0);
    let events = list(1500);
    let difference = check(start, &events).expect_err("a fault");
    let text = report(3, &difference, start, &events);
    println!("{text}");
    assert!(text.contains("LEVELS_SEED=3"));
    // To be shown a reading takes an OPEN, a CLOCK, a PUT and a GET at least.
    let shortest = text.lines().filter(|line| line.starts_with("  [")).count();
    assert!((4..=8).contains(&shortest));
}

#[test]
fn a_breach_of_demand_3_is_caught() {
    let mut caught = 0;
    for seed in 0..20 {
        let style = Style { sites: 3, partitions: 2, length: 2000, ..Style::bench(2000) };
        let (mut tally, mut stream) = (Tally::default(), Stream::new(seed, style));
        let mut watch = Watch::new(&mut tally);
        let mut pair = Pair::over(Archive::new(3, 2).expect("3 and 2")).expect("empty");
        let breach = (0..2000).find_map(|_| {
            let event = stream.next_event().to_vec();
            let answer = pair.step(&event).expect("no difference");
            // Session 0 is told that nothing is recorded, whatever there is.
            let wrong = answer.number == 1 && event[0] == code::GET && event[3] == 0;
            watch.see(&event, if wrong { &Answer::NOTHING } else { &answer }).err()
        });
        caught += u32::from(breach.is_some_and(|breach| breach.what.starts_with("demand 3")));
    }
    assert!(caught > 4, "{caught} of 20 caught");
}
