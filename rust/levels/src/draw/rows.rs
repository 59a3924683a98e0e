//! The lines of the picture, from top to bottom: sessions, nodes, and one for events
//! that have no place. Nodes stand by partition and then by site, since messages
//! stay in their partition: so arrows cross few lines.

use std::collections::BTreeSet;

/// A line of the picture.
#[derive(Clone, Copy, Debug, PartialEq, Eq, PartialOrd, Ord)]
pub enum Row {
    /// A session's.
    Session(u8),
    /// A node's.
    Node {
        /// Its partition.
        partition: u8,
        /// Its site.
        site: u8,
    },
    /// For events that are at no session and no node.
    Nowhere,
}

impl Row {
    /// Whether it is a node's.
    pub fn is_node(self) -> bool {
        matches!(self, Row::Node { .. })
    }

    /// Its name in the picture.
    pub fn name(self) -> String {
        match self {
            Row::Session(session) => format!("session {session}"),
            Row::Node { partition, site } => format!("site {site}, partition {partition}"),
            Row::Nowhere => "out of range".to_string(),
        }
    }
}

/// The lines that occur, each with its height.
pub struct Rows {
    rows: Vec<(Row, i32)>,
}

impl Rows {
    /// The lines that occur, in any order and any number of times.
    pub fn of(occurring: impl Iterator<Item = Row>) -> Rows {
        let mut rows: Vec<(Row, i32)> = Vec::new();
        for row in occurring.collect::<BTreeSet<Row>>() {
            let y = rows.last().map_or(52, |(above, y)| y + distance(*above, row));
            rows.push((row, y));
        }
        Rows { rows }
    }

    /// All lines and their heights, from top to bottom.
    pub fn all(&self) -> &[(Row, i32)] {
        &self.rows
    }

    /// The height of a line that occurs.
    pub fn y(&self, row: Row) -> i32 {
        self.rows.iter().find(|(other, _)| *other == row).map_or(0, |(_, y)| *y)
    }

    /// Where the room below the lines begins.
    pub fn bottom(&self) -> i32 {
        self.rows.last().map_or(40, |(_, y)| y + 50)
    }
}

/// The room between two lines: for the labels below the upper and above the lower.
fn distance(above: Row, below: Row) -> i32 {
    match (above, below) {
        (Row::Session(_), Row::Session(_)) => 46,
        (Row::Node { partition: p, .. }, Row::Node { partition: q, .. }) if p != q => 90,
        (Row::Node { .. }, _) => 74,
        _ => 62,
    }
}
