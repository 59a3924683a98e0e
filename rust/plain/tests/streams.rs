//! Generated lists of events: the archive keeps causality, every number
//! occurs, refusals and waits change nothing, a wait names what it waits for,
//! updates are conserved.
//!
//! PLAIN_SEED sets the first seed and PLAIN_RUNS the number of lists.

use std::env;

use plain::causal::Observer;
use plain::random::Random;
use plain::stream::{Stream, Style};
use plain::vector::greatest;
use plain::{Answer, Archive, Session, code};

/// A number from the environment, printed with its name.
fn setting(name: &str, usual: u64) -> u64 {
    let number = env::var(name).ok().and_then(|text| text.parse().ok()).unwrap_or(usual);
    println!("{name}={number}");
    number
}

/// A list of events of some style on a fresh archive.
fn start(seed: u64, length: usize) -> (Archive, Stream) {
    let style = Style::any(&mut Random::new(seed), length);
    let archive = Archive::new(style.sites, style.partitions).expect("lawful");
    (archive, Stream::new(seed, style))
}

#[test]
fn causality_holds_and_every_number_occurs() {
    let first = setting("PLAIN_SEED", 1);
    let runs = setting("PLAIN_RUNS", 600);
    let mut counts = [0u64; 25];
    let mut random = Random::new(first);
    for seed in first..first + runs {
        let length = random.between(200, 4000);
        let (mut archive, mut stream) = start(seed, length);
        let mut observer = Observer::new();
        for _ in 0..length {
            let event = stream.next_event();
            let answer = archive.step(event);
            counts[answer.number as usize] += 1;
            assert_eq!(observer.see(event, &answer), Ok(()), "seed {seed}");
        }
    }
    let total: u64 = counts.iter().sum();
    println!("{total} events");
    for number in (0..=3).chain(10..=23) {
        println!("{number:2} {}", counts[number]);
        assert!(counts[number] * 2000 > total, "too few of {number}");
    }
    assert!(total > 200_000 || runs < 600);
    assert_eq!(counts[24], 0);
}

#[test]
fn a_long_list_for_the_bench_keeps_causality() {
    let length = 300_000;
    let mut archive = Archive::new(4, 4).expect("lawful");
    let mut stream = Stream::new(setting("PLAIN_SEED", 1), Style::bench(length));
    let mut observer = Observer::new();
    for _ in 0..length {
        let event = stream.next_event();
        assert_eq!(event.len(), 32);
        assert_eq!(observer.see(event, &archive.step(event)), Ok(()));
    }
}

#[test]
fn the_same_seed_gives_the_same_events() {
    let (_, mut one) = start(9, 500);
    let (_, mut other) = start(9, 500);
    assert!((0..500).all(|_| one.next_event() == other.next_event()));
}

#[test]
fn refusals_and_waits_change_nothing() {
    for seed in 0..20 {
        let (mut archive, mut stream) = start(seed, 1000);
        for _ in 0..1000 {
            let event = stream.next_event();
            let before = archive.clone();
            let answer = archive.step(event);
            if answer.number >= 3 {
                assert!(archive == before, "seed {seed}");
                assert_eq!((answer.quality, answer.level), (0, 0));
            }
            if answer.number > 3 {
                assert_eq!(answer, Answer::only(answer.number));
            }
        }
    }
}

/// An event that waited, its answer, and its session as it was.
struct Waiting {
    event: Vec<u8>,
    answer: Answer,
    session: Session,
}

impl Waiting {
    /// Whether it still lacks what its answer names: the node has not heard the
    /// site up to the stamp or, for a PUT, its clock has not passed the stamp.
    fn lacks_what_it_names(&self, archive: &Archive) -> bool {
        let node = archive.node(self.session.site, archive.partition_of(self.event[4]));
        match self.event[0] {
            code::PUT => node.clock <= self.answer.stamp,
            _ => node.vector[self.answer.source as usize] < self.answer.stamp,
        }
    }

    /// What it lacks in an archive, as sites with the stamps needed, the lowest
    /// site first.
    fn lacks(&self, archive: &Archive) -> Vec<(usize, u64)> {
        let Session { site, vector, page, .. } = self.session;
        let node = archive.node(site, archive.partition_of(self.event[4]));
        let (wanted, own) = match self.event[0] {
            code::PUT => return vec![(site, greatest(&vector).max(node.vector[site]))],
            code::GET => (vector, false),
            _ => (page.expect("a READ waits on a page").vector, true),
        };
        let is_short = |at: &usize| node.vector[*at] < wanted[*at] && (own || *at != site);
        (0..archive.sites()).filter(is_short).map(|at| (at, wanted[at])).collect()
    }

    /// The same event still waits, and names the same. Of a PUT, 21 or 22 may
    /// take the place of the wait.
    fn waits_again(&self, archive: &mut Archive) {
        let again = archive.step(&self.event);
        let refused = self.event[0] == code::PUT && matches!(again.number, 21 | 22);
        assert!(again == self.answer || refused, "{:?}: {again:?}", self.answer);
    }
}

#[test]
fn the_named_station_is_never_rung_in_vain() {
    // By code, and those that lack several sites; READs that name their own site.
    let (mut waits, mut several, mut own, mut tries) = ([0; 11], [0; 11], 0, 0);
    for seed in 0..150 {
        let (mut archive, mut stream) = start(seed, 1500);
        let mut watched: Vec<Waiting> = Vec::new();
        for _ in 0..1500 {
            let event = stream.next_event().to_vec();
            let answer = archive.step(&event);
            if answer.number == 3 {
                let session = *archive.session(event[3].into());
                let waiting = Waiting { event, answer, session };
                let lacks = waiting.lacks(&archive);
                assert_eq!((answer.source as usize, answer.stamp), lacks[0], "seed {seed}");
                let code = waiting.event[0];
                waits[code as usize] += 1;
                several[code as usize] += usize::from(lacks.len() > 1);
                own += usize::from(code == code::READ && lacks[0].0 == session.site);
                watched.push(waiting);
            }
            watched.retain(|waiting| {
                waiting.session == *archive.session(waiting.event[3].into())
                    && waiting.lacks_what_it_names(&archive)
            });
            let mut beside = archive.clone();
            watched.iter().for_each(|waiting| waiting.waits_again(&mut beside));
            assert!(beside == archive, "seed {seed}");
            tries += watched.len();
        }
    }
    for (name, code) in [("GET", code::GET), ("PUT", code::PUT), ("READ", code::READ)] {
        let (waits, several) = (waits[code as usize], several[code as usize]);
        println!("{name}: {waits} waits, {several} of them for several sites");
        assert!(waits > 1000 && (several > 100 || code == code::PUT));
    }
    println!("{own} READs for their own site; {tries} tries again");
    assert!(own > 1000 && tries > 200_000);
}

/// The updates waiting in a channel.
fn updates_in(archive: &Archive, from: usize, to: usize, partition: usize) -> usize {
    let channel = archive.channel(from, to, partition);
    let is_update = |message: &plain::Message| matches!(message, plain::Message::Update(_));
    (0..channel.len()).filter_map(|place| channel.at(place)).filter(|m| is_update(m)).count()
}

#[test]
fn updates_are_conserved_on_every_channel() {
    for seed in 0..100 {
        let (mut archive, mut stream) = start(seed, 1500);
        let mut put = [[0; 4]; 4];
        let mut delivered = [[[0; 4]; 4]; 4];
        for _ in 0..1500 {
            let event = stream.next_event().to_vec();
            let deliver = event.len() == 32 && event[0] == code::DELIVER;
            let fields = |at: usize| (event[at] & 3) as usize;
            let update =
                deliver && archive.channel(fields(6), fields(1), fields(2)).holds_update_in_front();
            let answer = archive.step(&event);
            if answer.number == 0 && event[0] == code::PUT {
                put[answer.source as usize][archive.partition_of(event[4])] += 1;
            }
            if answer.number == 0 && update {
                delivered[fields(6)][fields(1)][fields(2)] += 1;
            }
        }
        for place in 0..archive.sites() * archive.sites() * archive.partitions() {
            let (from, rest) = (place % archive.sites(), place / archive.sites());
            let (to, partition) = (rest % archive.sites(), rest / archive.sites());
            let waiting = updates_in(&archive, from, to, partition);
            let sent = if from == to { 0 } else { put[from][partition] };
            assert_eq!(sent, delivered[from][to][partition] + waiting, "seed {seed}");
        }
    }
}

#[test]
fn a_wrong_answer_put_in_is_caught() {
    let mut caught = 0;
    for seed in 0..50 {
        let (mut archive, mut stream) = start(seed, 2000);
        let mut observer = Observer::new();
        for _ in 0..2000 {
            let event = stream.next_event();
            let answer = archive.step(event);
            // Session 0 is told that nothing is recorded, whatever there is.
            let wrong = answer.number == 1 && event[0] == code::GET && event[3] == 0;
            let told = if wrong { Answer::NOTHING } else { answer };
            if observer.see(event, &told).is_err() {
                caught += 1;
                break;
            }
        }
    }
    println!("{caught} of 50 caught");
    assert!(caught > 10);
}
