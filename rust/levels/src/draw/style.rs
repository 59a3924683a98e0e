//! Measures, in pixels, and colours.
//!
//! The colours are Okabe and Ito's without yellow, chosen to be told apart by
//! colour-blind readers and on white; each mark also has its session's number in it.
//! Letters are all of one width, so the room that a label takes is known.

/// Where the lines begin; left of it stand their names.
pub const LEFT: i32 = 150;
/// The baseline of the events' numbers.
pub const NUMBERS: i32 = 18;
/// Half the width of a mark.
pub const HALF_MARK: i32 = 9;
/// The least distance between two events.
pub const STEP: i32 = 26;
/// The least room between two labels on a line.
pub const GAP: i32 = 8;

/// What holds for the whole picture.
pub const STYLE: &str = "\
text { font-family: 'DejaVu Sans Mono', Menlo, Consolas, 'Liberation Mono', monospace; font-size: 10px; fill: #222 }
.label { text-anchor: middle; paint-order: stroke; stroke: #fff; stroke-width: 3px; stroke-linejoin: round }
.number { text-anchor: middle; font-size: 8px; fill: #666 }
.name { font-size: 11px }
.inside { text-anchor: middle; font-weight: bold }
.to { font-size: 9px; fill: #555; paint-order: stroke; stroke: #fff; stroke-width: 2px }
.node { stroke: #999; stroke-width: 1.5px }
.quiet { stroke: #ddd; stroke-width: 1px }
.arrow { stroke: #333; stroke-width: 1.2px; fill: none }
.beat { stroke-dasharray: 5 3 }
.stub { stroke: #555; stroke-width: 1.2px; stroke-dasharray: 2 2; fill: none }";

/// The width of a label's letters.
pub fn text_width(text: &str) -> i32 {
    let letters = i32::try_from(text.chars().count()).unwrap_or(i32::MAX / 100);
    (letters * 61 + 9) / 10
}

/// A session's colour, and that of the number inside its marks.
#[derive(Clone, Copy, Debug, PartialEq, Eq)]
pub struct Colour {
    /// Of marks and lines.
    pub fill: &'static str,
    /// Of the number on it.
    pub ink: &'static str,
}

const COLOURS: [Colour; 7] = [
    Colour { fill: "#0072b2", ink: "#fff" },
    Colour { fill: "#d55e00", ink: "#fff" },
    Colour { fill: "#009e73", ink: "#fff" },
    Colour { fill: "#cc79a7", ink: "#000" },
    Colour { fill: "#e69f00", ink: "#000" },
    Colour { fill: "#56b4e9", ink: "#000" },
    Colour { fill: "#000000", ink: "#fff" },
];

/// The colour of a session; that of no session is grey.
pub fn colour(session: Option<u8>) -> Colour {
    match session {
        Some(session) => COLOURS[usize::from(session) % COLOURS.len()],
        None => Colour { fill: "#444", ink: "#fff" },
    }
}
