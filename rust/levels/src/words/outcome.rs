//! What became of an event: the sentence's second half.

use level_archive::{Answer, Event, Message, Reading, Record, Refusal};

use super::list::named;
use crate::story::{Detail, Happening};

/// What became of an event, as a sentence goes on after it: `waits at node 1,0 for ..`.
pub fn outcome(happening: &Happening) -> String {
    match happening.answer {
        Answer::Written { stamp, .. } => written(happening, stamp),
        Answer::Value(reading) => format!("shows {}", shown(reading)),
        Answer::Nothing => match happening.piece.event() {
            Ok(Event::Read { .. }) => {
                "shows nothing: no record of the key fits the page".to_string()
            }
            _ => "shows nothing: no record of the key is here".to_string(),
        },
        Answer::Wait { site, stamp } => waits(happening, site, stamp),
        Answer::Refused(refusal) => refused(happening, refusal),
        _ => done(happening),
    }
}

fn done(happening: &Happening) -> String {
    match &happening.detail {
        Detail::Vector(entries) => match happening.piece.event() {
            Ok(Event::Begin { .. }) => format!("opens a page as of {entries:?}"),
            _ => format!("closes the page, and the session has seen {entries:?}"),
        },
        Detail::Sent { stamp, to } if to.is_empty() => {
            format!("is done with stamp {stamp}, and there is no other site to tell")
        }
        Detail::Sent { stamp, to } => format!("sends stamp {stamp} to {}", named("site", to)),
        Detail::Told(stamp) => format!("sends nothing: its clock has not passed {stamp}"),
        Detail::Arrived { message, heard } => arrived(happening, message, *heard),
        Detail::PageEnded => "is done, and its open page ends".to_string(),
        _ => "is done".to_string(),
    }
}

fn written(happening: &Happening, stamp: u64) -> String {
    let to = match &happening.detail {
        Detail::Sent { to, .. } if !to.is_empty() => format!(" and sent to {}", named("site", to)),
        _ => String::new(),
    };
    format!("is written{} with stamp {stamp}{to}", at_node(happening))
}

fn arrived(happening: &Happening, message: &Message, heard: u64) -> String {
    let (what, source) = match message {
        Message::Update(record) => (format!("brings {}", update(record)), record.source),
        Message::Heartbeat { source, stamp } => {
            (format!("brings a heartbeat with stamp {stamp}"), *source)
        }
    };
    let node = happening.node.map_or("it".to_string(), |node| format!("node {node}"));
    format!("{what}; {node} has heard site {source} up to {heard}")
}

/// An update in words.
pub fn update(record: &Record) -> String {
    let Record { key, source, quality, level, stamp, .. } = *record;
    format!("key {key}: {}", shown(Reading { source, quality, level, stamp }))
}

fn shown(reading: Reading) -> String {
    let Reading { source, quality, level, stamp } = reading;
    format!("{level} mm, {quality}, with stamp {stamp} of site {source}")
}

fn at_node(happening: &Happening) -> String {
    happening.node.map_or(String::new(), |node| format!(" at node {node}"))
}

/// What it waits for, the answer says.
fn waits(happening: &Happening, site: u8, stamp: u64) -> String {
    let at = at_node(happening);
    match happening.piece.event() {
        Ok(Event::Put { .. }) => format!("waits{at} until its clock has passed {stamp}"),
        _ => format!("waits{at} for site {site} up to {stamp}"),
    }
}

fn refused(happening: &Happening, refusal: Refusal) -> String {
    let more = match &happening.detail {
        Detail::ClockIs(clock) => format!(", which is {clock}"),
        Detail::AlreadyRead(true) => " (it was already read)".to_string(),
        Detail::AlreadyRead(false) => " (it is not on the page)".to_string(),
        Detail::UnreadKeys(keys) => format!(" ({})", named("key", keys)),
        Detail::FullTo(sites) => format!(" (to {})", named("site", sites)),
        _ => String::new(),
    };
    format!("is refused with {}: {refusal}{more}", refusal.number())
}
