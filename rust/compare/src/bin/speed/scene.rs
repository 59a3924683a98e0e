//! A table to start from, and a stream of events that goes on with it.

use std::fmt;

use level_archive::Archive;
use plain::limits::{KEYS, MESSAGES, PAGE_KEYS, PARTITIONS, RECORDS, SESSIONS, SITES};
use plain::make::{self, Bytes};
use plain::random::Random;
use plain::stream::{Stream, Style};

/// The same state as structs and as bytes, and what comes next.
pub struct Scene {
    pub name: &'static str,
    pub archive: plain::Archive,
    pub table: Box<[u8]>,
    pub events: Vec<u8>,
}

/// A stream of lawful events, some of which are put before it.
struct Script {
    stream: Stream,
    before: Vec<u8>,
    events: Vec<u8>,
}

impl Scene {
    /// Few records, and hardly a message waiting: what is sent is delivered.
    pub fn almost_empty(length: usize) -> Scene {
        let mut script = Script::new(length, 3);
        while script.events.len() < 32 * (length + 200) {
            let event = script.stream.next_event().to_vec();
            script.events.extend(event);
            while let Some(deliver) = script.waiting(4) {
                script.put(deliver);
            }
        }
        script.before = script.events.drain(..32 * 200).collect();
        script.scene("almost empty", length)
    }

    /// Every node holds 32 records and every channel four messages; all sessions
    /// are open, and half of them have a page that is half read.
    pub fn full(length: usize) -> Scene {
        let mut script = Script::filled(length);
        (SESSIONS / 2..SESSIONS).for_each(|session| script.open_page(session as u8));
        (1..=MESSAGES / 2).for_each(|turn| script.beat_all(1_000 + turn as u64));
        script.before = std::mem::take(&mut script.events);
        while script.events.len() < 32 * length {
            let event = script.stream.next_event().to_vec();
            script.events.extend(event);
        }
        script.scene("full", length)
    }

    /// Every node holds 32 records and has heard all; all sessions are open without a
    /// page. The stream is GETs, of any session and any key, and none of them waits.
    pub fn gets(length: usize) -> Scene {
        let mut script = Script::filled(length);
        script.before = std::mem::take(&mut script.events);
        let mut random = Random::new(1);
        for _ in 0..length {
            script.put(make::get(random.below(SESSIONS) as u8, random.below(KEYS) as u8));
        }
        let scene = script.scene("GETs on full nodes", length);
        let mut archive = scene.archive.clone();
        let mut answers = scene.events.chunks(32).map(|event| archive.step(event).number);
        assert!(answers.all(|number| number == 1 || number == 2), "a GET isn't served");
        scene
    }
}

impl Script {
    /// With as many PUTs as fill a share of the nodes, in hundredths.
    fn new(length: usize, fill: usize) -> Script {
        let style = Style { fill, damage: 0, ..Style::bench(length) };
        Script { stream: Stream::new(1, style), before: Vec::new(), events: Vec::new() }
    }

    /// All sessions are open, every node holds 32 records, and every message of these
    /// and of a heartbeat from each node is delivered.
    fn filled(length: usize) -> Script {
        let mut script = Script::new(length, 0);
        (0..SESSIONS)
            .for_each(|number| script.put(make::open(number as u8, (number % SITES) as u8)));
        (0..RECORDS * PARTITIONS).for_each(|number| script.put_one(number));
        script.beat_all(1_000);
        while let Some(deliver) = script.waiting(1) {
            script.put(deliver);
        }
        script
    }

    /// Adds an event of our own.
    fn put(&mut self, event: Bytes) {
        self.stream.take(&event);
        self.events.extend(event);
    }

    /// A delivery, where `many` messages or more wait in all channels together.
    fn waiting(&self, many: usize) -> Option<Bytes> {
        let all = (0..SITES * SITES * PARTITIONS).map(|number| {
            let (from, rest) = (number % SITES, number / SITES);
            (from, rest % SITES, rest / SITES)
        });
        let length = |&(from, to, partition): &(usize, usize, usize)| {
            self.stream.archive().channel(from, to, partition).len()
        };
        let busiest = all.clone().max_by_key(length)?;
        let (from, to, partition) = busiest;
        (all.map(|channel| length(&channel)).sum::<usize>() >= many)
            .then(|| make::deliver(from as u8, to as u8, partition as u8))
    }

    /// A reading written at each site in turn, for each key, and delivered.
    fn put_one(&mut self, number: usize) {
        let (site, partition) = (number % SITES, number / SITES % PARTITIONS);
        let key = partition + PARTITIONS * (number / (SITES * PARTITIONS) * 5 % 16);
        self.put(make::clock(site as u8, partition as u8, 1 + number as u64));
        self.put(make::put(site as u8, key as u8, (number % 3) as u8, number as i32));
        for to in (0..SITES).filter(|to| *to != site) {
            self.put(make::deliver(site as u8, to as u8, partition as u8));
        }
    }

    /// Every node sends a heartbeat.
    fn beat_all(&mut self, time: u64) {
        for number in 0..SITES * PARTITIONS {
            let (site, partition) = ((number % SITES) as u8, (number / SITES) as u8);
            self.put(make::clock(site, partition, time));
            self.put(make::beat(site, partition));
        }
    }

    /// A page of eight keys, four of which are read.
    fn open_page(&mut self, session: u8) {
        let keys: Vec<u8> = (0..PAGE_KEYS as u8).map(|place| place * 7 + session % 8).collect();
        self.put(make::begin(session, session % 4, &keys));
        keys[..PAGE_KEYS / 2].iter().for_each(|key| self.put(make::read(session, *key)));
    }

    /// The state after what comes before, and the rest of the events.
    fn scene(self, name: &'static str, length: usize) -> Scene {
        let mut archive = plain::Archive::new(SITES, PARTITIONS).expect("4 and 4");
        let mut core = Archive::new(SITES as u32, PARTITIONS as u32).expect("4 and 4");
        for event in self.before.chunks(32) {
            assert_eq!(core.step_bytes(event).number(), archive.step(event).number);
        }
        let mut events = self.events;
        events.truncate(32 * length);
        Scene { name, archive, table: core.into_bytes(), events }
    }
}

impl fmt::Display for Scene {
    fn fmt(&self, f: &mut fmt::Formatter<'_>) -> fmt::Result {
        let mut later = self.archive.clone();
        self.events.chunks(32).for_each(|event| assert!(later.step(event).number < 23));
        writeln!(f, "{}: {}", self.name, holds(&self.archive))?;
        write!(f, "  after its stream: {}", holds(&later))
    }
}

/// How much an archive holds, in words.
fn holds(archive: &plain::Archive) -> String {
    let nodes = (0..SITES * PARTITIONS).map(|at| archive.node(at % SITES, at / SITES));
    let records: usize = nodes.map(|node| node.records().len()).sum();
    let channels = (0..SITES * SITES * PARTITIONS)
        .map(|at| archive.channel(at % SITES, at / SITES % SITES, at / (SITES * SITES)));
    let messages: usize = channels.map(|channel| channel.len()).sum();
    let sessions = (0..SESSIONS).map(|number| archive.session(number));
    let open = sessions.clone().filter(|session| session.open).count();
    let pages = sessions.filter(|session| session.open && session.page.is_some()).count();
    format!("{records} records, {messages} messages, {open} open sessions, {pages} pages")
}
