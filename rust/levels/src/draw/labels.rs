//! The short texts beside marks. `0@100` is the stamp 100 of site 0.

use level_archive::{Answer, Event, Message};

use crate::story::{Detail, Happening};
use crate::words::list;

/// The sites of a stub.
pub fn stub_text(sites: &[u8]) -> String {
    let sites: Vec<String> = sites.iter().map(u8::to_string).collect();
    sites.join(" ")
}

/// The label of a page.
pub fn page_text(keys: &[u8]) -> String {
    format!("page of {}", list(keys))
}

/// What an event at a node asks for, in two short lines at most.
pub fn name(event: &Event) -> Vec<String> {
    match event {
        Event::Put { key, .. } | Event::Get { key, .. } | Event::Read { key, .. } => {
            vec![format!("key {key}")]
        }
        Event::Begin { .. } => vec!["page".to_string()],
        Event::Beat { .. } => vec!["beat".to_string()],
        Event::Clock { time, .. } => vec!["clock".to_string(), time.to_string()],
        _ => Vec::new(),
    }
}

/// What came of it, in two short lines at most.
pub fn result(happening: &Happening) -> Vec<String> {
    match (happening.answer, &happening.detail) {
        (Answer::Value(reading), _) => {
            let quality = reading.quality.number();
            vec![level(reading.level, quality), stamp(reading.source, reading.stamp)]
        }
        (Answer::Nothing, _) => vec!["nothing".to_string()],
        (Answer::Written { source, stamp: at }, _) => match happening.piece.event() {
            Ok(Event::Put { quality, level: mm, .. }) => {
                vec![level(mm, quality), stamp(source, at)]
            }
            _ => vec![stamp(source, at)],
        },
        (Answer::Wait { site, stamp: needed }, _) => match happening.piece.event() {
            Ok(Event::Put { .. }) => vec!["waits".to_string(), format!(">{needed}")],
            _ => vec!["waits".to_string(), stamp(site, needed)],
        },
        (_, Detail::Sent { stamp: at, .. }) => {
            happening.node.map(|node| stamp(node.site, *at)).into_iter().collect()
        }
        (_, Detail::Told(_)) => vec!["no news".to_string()],
        (_, Detail::Arrived { message, .. }) => match message {
            Message::Update(record) => {
                vec![format!("key {}", record.key), stamp(record.source, record.stamp)]
            }
            Message::Heartbeat { source, stamp: at } => {
                vec!["beat".to_string(), stamp(*source, *at)]
            }
        },
        (_, Detail::Vector(entries)) => {
            let entries: Vec<String> = entries.iter().map(u64::to_string).collect();
            vec![format!("[{}]", entries.join(" "))]
        }
        _ => Vec::new(),
    }
}

/// A stamp of a site, as `0@100`.
fn stamp(site: u8, stamp: u64) -> String {
    format!("{site}@{stamp}")
}

/// A level; c is corrected, e estimated.
fn level(level: i32, quality: u8) -> String {
    match quality {
        1 => format!("{level} c"),
        2 => format!("{level} e"),
        _ => level.to_string(),
    }
}
