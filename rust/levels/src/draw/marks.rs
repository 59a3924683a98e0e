//! Which marks an event has, and where.

use level_archive::limits::SESSIONS;
use level_archive::{Answer, Event, Refusal};

use super::labels::{name, result};
use super::mark::Mark;
use super::rows::Row;
use super::shapes::Shape;
use crate::story::{Detail, Happening};

/// The marks of an event: at its node, at its session if there is such a one, or
/// nowhere.
pub fn marks_of(happening: &Happening, left_over: &[u8]) -> Vec<Mark> {
    let session = happening.session();
    let of_session = session.filter(|session| *session < SESSIONS).map(Row::Session);
    let of_node =
        happening.node.map(|node| Row::Node { partition: node.partition, site: node.site });
    let Ok(event) = happening.piece.event() else {
        return vec![refused(Row::Nowhere, happening)];
    };
    if let Answer::Refused(refusal) = happening.answer {
        let full = matches!(refusal, Refusal::ChannelFull | Refusal::NodeFull);
        let row = if full { of_node.or(of_session) } else { of_session.or(of_node) };
        return vec![refused(row.unwrap_or(Row::Nowhere), happening)];
    }
    let mut marks = Vec::new();
    if let (Some(row), Some(node)) = (of_node, happening.node) {
        marks.push(at_node(row, &event, happening).with_left_over(node.site, left_over));
    }
    if let Some(row) = of_session {
        marks.push(at_session(row, &event, session));
    }
    marks
}

fn refused(row: Row, happening: &Happening) -> Mark {
    let number = happening.answer.number().to_string();
    Mark::new(row, Shape::Cross, happening.session()).below(&[number])
}

/// OPEN, CLOSE and END have a place here alone; of others the session's line shows
/// that something happened.
fn at_session(row: Row, event: &Event, session: Option<u8>) -> Mark {
    match event {
        Event::Open { site, .. } => {
            Mark::new(row, Shape::Ring, session).below(&[format!("at site {site}")])
        }
        Event::Close { .. } => Mark::new(row, Shape::Bar, session),
        Event::Begin { keys, .. } => Mark::new(row, Shape::Dot, session).with_page(keys.as_slice()),
        _ => Mark::new(row, Shape::Dot, session),
    }
}

fn at_node(row: Row, event: &Event, happening: &Happening) -> Mark {
    let mark = Mark::new(row, shape(event, happening), happening.session());
    let result = result(happening);
    match event {
        // the arrow comes from below
        Event::Deliver { from, site, .. } if from > site => mark.above(&result),
        _ => mark.above(&name(event)).below(&result),
    }
}

fn shape(event: &Event, happening: &Happening) -> Shape {
    let waits = matches!(happening.answer, Answer::Wait { .. });
    match event {
        Event::Put { .. } => Shape::Square { hollow: waits },
        Event::Get { .. } => Shape::Circle { hollow: waits },
        Event::Read { .. } => Shape::Diamond { hollow: waits },
        Event::Begin { .. } => Shape::Bracket,
        Event::Clock { .. } => Shape::Tick,
        Event::Beat { .. } => {
            Shape::Triangle { hollow: matches!(happening.detail, Detail::Told(_)) }
        }
        _ => Shape::Dot,
    }
}
