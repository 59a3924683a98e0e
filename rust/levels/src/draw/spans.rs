//! What lasts: a session from OPEN to CLOSE, a page from BEGIN to END or CLOSE.

use std::collections::BTreeMap;

use level_archive::{Answer, Event};

use crate::story::Happening;

/// Something that lasts; events are counted from 0.
#[derive(Clone, Debug, PartialEq, Eq)]
pub struct Span {
    /// The session.
    pub session: u8,
    /// The page's keys; none for the session itself.
    pub page: Option<Vec<u8>>,
    /// The event with which it begins.
    pub begin: usize,
    /// The event with which it ends, if it does.
    pub end: Option<usize>,
}

/// All sessions and pages, in the order in which they end.
pub fn spans(happenings: &[Happening]) -> Vec<Span> {
    let mut sessions: BTreeMap<u8, Span> = BTreeMap::new();
    let mut pages: BTreeMap<u8, Span> = BTreeMap::new();
    let mut ended = Vec::new();
    for (at, happening) in happenings.iter().enumerate() {
        let (Ok(event), Answer::Done) = (happening.piece.event(), happening.answer) else {
            continue;
        };
        let mut end =
            |span: Option<Span>| ended.extend(span.map(|span| Span { end: Some(at), ..span }));
        match event {
            Event::Open { session, .. } => {
                sessions.insert(session, Span { session, page: None, begin: at, end: None });
            }
            Event::Begin { session, keys, .. } => {
                let page = Some(keys.as_slice().to_vec());
                pages.insert(session, Span { session, page, begin: at, end: None });
            }
            Event::End { session } => end(pages.remove(&session)),
            Event::Close { session } => {
                end(pages.remove(&session));
                end(sessions.remove(&session));
            }
            _ => {}
        }
    }
    ended.extend(sessions.into_values().chain(pages.into_values()));
    ended
}
