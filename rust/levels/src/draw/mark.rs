//! A mark with its labels, and the room that it takes.

use super::labels::{page_text, stub_text};
use super::rows::Row;
use super::shapes::Shape;
use super::style::{HALF_MARK, text_width};

/// A mark on a line, with its labels.
#[derive(Clone, Debug, PartialEq, Eq)]
pub struct Mark {
    /// Its line.
    pub row: Row,
    /// Its shape.
    pub shape: Shape,
    /// The session whose it is.
    pub session: Option<u8>,
    above: Vec<String>,
    below: Vec<String>,
    /// The sites above and below on the picture that a message is still on its way to.
    pub up: Vec<u8>,
    /// See `up`.
    pub down: Vec<u8>,
    /// Room for the name of a page, which stands right of here above all marks.
    page: i32,
}

/// Where labels must not touch.
#[derive(Clone, Copy, Debug, PartialEq, Eq, PartialOrd, Ord)]
pub enum Lane {
    /// A line, with the labels above and below it.
    On(Row),
    /// The room above a session's line.
    Above(Row),
}

/// Where the text of a stub begins, right of its mark.
pub const STUB_TEXT: i32 = 24;

impl Mark {
    /// A mark without labels.
    pub fn new(row: Row, shape: Shape, session: Option<u8>) -> Mark {
        let (above, below, up, down) = (Vec::new(), Vec::new(), Vec::new(), Vec::new());
        Mark { row, shape, session, above, below, up, down, page: 0 }
    }

    /// With lines of text above.
    pub fn above(mut self, lines: &[String]) -> Mark {
        self.above = lines.to_vec();
        self
    }

    /// With lines of text below.
    pub fn below(mut self, lines: &[String]) -> Mark {
        self.below = lines.to_vec();
        self
    }

    /// With the name of a page above.
    pub fn with_page(mut self, keys: &[u8]) -> Mark {
        self.page = text_width(&page_text(keys));
        self
    }

    /// The sites that the message has not reached, split by where they stand.
    pub fn with_left_over(mut self, own: u8, sites: &[u8]) -> Mark {
        (self.up, self.down) = sites.iter().partition(|site| **site < own);
        self
    }

    /// The room that it takes: on which line, left and right of its middle. Names of
    /// pages stand in a lane of their own above their line.
    pub fn room(&self) -> impl Iterator<Item = (Lane, i32, i32)> {
        let page = (self.page > 0).then_some((Lane::Above(self.row), 0, self.page));
        [(Lane::On(self.row), self.left(), self.right())].into_iter().chain(page)
    }

    fn left(&self) -> i32 {
        let labels = self.above.iter().chain(&self.below);
        labels.map(|text| text_width(text) / 2 + 1).fold(HALF_MARK, i32::max)
    }

    fn right(&self) -> i32 {
        let stubs = [&self.up, &self.down].into_iter().filter(|sites| !sites.is_empty());
        let stubs = stubs.map(|sites| STUB_TEXT + text_width(&stub_text(sites)));
        stubs.fold(self.left(), i32::max)
    }

    /// Its labels, each with its baseline, when the line is at `y`.
    pub fn lines(&self, y: i32) -> impl Iterator<Item = (&str, i32)> {
        let lowest = if self.row.is_node() { 22 } else { 16 };
        let above = self.above.iter().rev().zip((0..).map(move |line| y - 14 - 11 * line));
        let below = self.below.iter().zip((0..).map(move |line| y + lowest + 11 * line));
        above.chain(below).map(|(text, baseline)| (text.as_str(), baseline))
    }
}
