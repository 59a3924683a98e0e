//! Archives with a fault, which the observer has to catch. A fault is made by
//! turning the state around a right step, so the steps themselves stay whole.

use crate::causal::{Observer, Violation};
use crate::event::{Event, code};
use crate::random::Random;
use crate::stream::{Stream, Style};
use crate::vector::{Vector, ZERO, covers_besides, greatest, raise, raise_entry};
use crate::{Answer, Archive};

const ALL: Vector = [u64::MAX; 4];

#[derive(Clone, Copy, PartialEq, Eq, Debug)]
enum Fault {
    None,
    GetNeverWaits,
    RaisedByStampOnly,
    PageAsSeparateGets,
    ReadIgnoresOwnEntry,
    StampOfHeartbeat,
    RecordCarriesNothing,
    EndRaisesNothing,
    PageWithoutSession,
    SomeUpdatesLost,
}

/// One step of an archive with a fault.
fn step(archive: &mut Archive, fault: Fault, bytes: &[u8]) -> Answer {
    let whole = <&[u8; 32]>::try_from(bytes).ok();
    let event =
        whole.and_then(|bytes| Event::decode(bytes, archive.sites, archive.partitions).ok());
    let Some(event) = event else {
        return archive.step(bytes);
    };
    match event.code {
        code::DELIVER => step_deliver(archive, fault, &event, bytes),
        code::OPEN | code::CLOSE | code::CLOCK | code::BEAT => archive.step(bytes),
        _ => step_session(archive, fault, &event, bytes),
    }
}

fn step_deliver(archive: &mut Archive, fault: Fault, event: &Event, bytes: &[u8]) -> Answer {
    let before = archive.nodes[event.site][event.partition];
    let answer = archive.step(bytes);
    let node = &mut archive.nodes[event.site][event.partition];
    // Losing all of them would be no breach: nothing then comes from afar.
    let even = node.records().last().is_some_and(|record| record.stamp % 2 == 0);
    if fault == Fault::SomeUpdatesLost && even {
        let vector = node.vector;
        *node = before;
        node.vector = vector;
    }
    answer
}

fn step_session(archive: &mut Archive, fault: Fault, event: &Event, bytes: &[u8]) -> Answer {
    let session = archive.sessions[event.session];
    let (site, partition) = (session.site, archive.partition_of(event.key));
    let node = archive.nodes[site][partition];
    before(archive, fault, event);
    let answer = archive.step(bytes);
    let now = &mut archive.sessions[event.session];
    if event.code == code::READ {
        archive.nodes[site][partition].vector = node.vector;
        if let (Some(page), Some(old)) = (&mut now.page, &session.page) {
            page.vector = old.vector;
        }
    }
    match (fault, event.code, answer.number) {
        (Fault::GetNeverWaits, code::GET, _) => raise(&mut now.vector, &session.vector),
        (Fault::RaisedByStampOnly, code::GET, 1) => {
            now.vector = session.vector;
            raise_entry(&mut now.vector, answer.source as usize, answer.stamp);
        }
        (Fault::EndRaisesNothing, code::END, 0) => now.vector = session.vector,
        (Fault::PageWithoutSession, code::BEGIN, 0) => {
            let coordinator = archive.nodes[site][event.partition].vector;
            now.page.as_mut().expect("a page was begun").vector = coordinator;
        }
        (Fault::StampOfHeartbeat, code::PUT, 3..) => {
            archive.nodes[site][partition].vector = node.vector;
        }
        (Fault::RecordCarriesNothing, code::PUT, _) => raise(&mut now.vector, &session.vector),
        _ => (),
    }
    answer
}

/// What is turned before the step.
fn before(archive: &mut Archive, fault: Fault, event: &Event) {
    let partition = archive.partition_of(event.key);
    let session = &mut archive.sessions[event.session];
    let node = &mut archive.nodes[session.site][partition];
    match (fault, event.code) {
        (Fault::GetNeverWaits, code::GET) => session.vector = ZERO,
        (Fault::PageAsSeparateGets, code::READ) => {
            if let Some(page) = &mut session.page {
                if covers_besides(session.site, &node.vector, &session.vector) {
                    node.vector = ALL;
                    page.vector = ALL;
                }
            }
        }
        (Fault::ReadIgnoresOwnEntry, code::READ) => node.vector[session.site] = u64::MAX,
        (Fault::StampOfHeartbeat, code::PUT) => {
            let own = &mut node.vector[session.site];
            *own = own.saturating_sub(1);
        }
        (Fault::RecordCarriesNothing, code::PUT) if node.clock > greatest(&session.vector) => {
            session.vector = ZERO;
        }
        _ => (),
    }
}

/// Runs one list of events with a fault.
fn run(fault: Fault, seed: u64, length: usize) -> Result<(), Violation> {
    let style = Style::any(&mut Random::new(seed), length);
    let mut archive = Archive::new(style.sites, style.partitions).expect("lawful");
    let mut stream = Stream::new(seed, style);
    let mut observer = Observer::new();
    for _ in 0..length {
        let event = stream.next_event();
        observer.see(event, &step(&mut archive, fault, event))?;
    }
    Ok(())
}

#[test]
fn no_fault_is_accepted() {
    for seed in 0..100 {
        assert_eq!(run(Fault::None, seed, 2000), Ok(()), "seed {seed}");
    }
}

#[test]
fn every_fault_is_caught() {
    let faults = [
        Fault::GetNeverWaits,
        Fault::RaisedByStampOnly,
        Fault::PageAsSeparateGets,
        Fault::ReadIgnoresOwnEntry,
        Fault::StampOfHeartbeat,
        Fault::RecordCarriesNothing,
        Fault::EndRaisesNothing,
        Fault::PageWithoutSession,
        Fault::SomeUpdatesLost,
    ];
    for fault in faults {
        let caught = (0..1000).find_map(|seed| Some((seed, run(fault, seed, 2000).err()?)));
        let (seed, violation) = caught.unwrap_or_else(|| panic!("{fault:?} is not caught"));
        println!("{fault:?}: seed {seed}, {violation:?}");
    }
}
