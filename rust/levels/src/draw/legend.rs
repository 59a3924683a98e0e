//! What the signs mean.

use super::paths;
use super::shapes::{self, Shape};
use super::xml::Xml;

/// The least width of a picture, so that the legend has room.
pub const WIDTH: i32 = 850;
/// The room that the legend takes.
pub const HEIGHT: i32 = 20 + LINE * LINES;

const LINES: i32 = 5;
const LINE: i32 = 24;
const COLUMN: i32 = 280;
/// From a sign to its words.
const WORDS: i32 = 24;
/// From a sign that is text to its words.
const WORDS_BEHIND_TEXT: i32 = 54;

enum Sign {
    Mark(Shape, Option<u8>),
    Path(&'static str, &'static str),
    Text(&'static str),
}

/// Column by column.
const SIGNS: [(Sign, &str); 15] = [
    (Sign::Mark(Shape::Square { hollow: false }, Some(0)), "PUT; the number is the session"),
    (Sign::Mark(Shape::Circle { hollow: false }, Some(0)), "GET, with what it shows"),
    (Sign::Mark(Shape::Diamond { hollow: false }, Some(0)), "READ, with what it shows"),
    (Sign::Mark(Shape::Circle { hollow: true }, Some(0)), "hollow: it waits"),
    (Sign::Mark(Shape::Cross, None), "refused, with the number"),
    (Sign::Mark(Shape::Tick, None), "CLOCK"),
    (Sign::Mark(Shape::Triangle { hollow: false }, None), "BEAT; hollow: nothing to send"),
    (Sign::Path("arrow", "h22"), "an update, delivered"),
    (Sign::Path("arrow beat", "h22"), "a heartbeat, delivered"),
    (Sign::Path("stub", "h16"), "on the way to these sites"),
    (Sign::Text("0@9"), "stamp 9 of site 0"),
    (Sign::Text("waits 0@9"), "until site 0 is heard up to 9"),
    (Sign::Text("waits >9"), "until the clock has passed 9"),
    (Sign::Text("7 c, 7 e"), "7 mm, corrected or estimated"),
    (Sign::Mark(Shape::Bracket, Some(0)), "BEGIN, with the page's vector"),
];

/// Draws the legend below `top`.
pub fn draw(xml: &mut Xml, top: i32) {
    xml.open("g", r#"class="legend""#);
    for (place, (sign, words)) in (0..).zip(&SIGNS) {
        let (x, y) = (24 + COLUMN * (place / LINES), top + 20 + LINE * (place % LINES));
        match sign {
            Sign::Mark(shape, session) => shapes::draw(xml, x, y, *shape, *session),
            Sign::Path(class, path) => {
                paths::headed(xml, class, format_args!("M{} {y}{path}", x - 11));
            }
            Sign::Text(text) => write(xml, x - 11, y, text),
        }
        let distance = if matches!(sign, Sign::Text(_)) { WORDS_BEHIND_TEXT } else { WORDS };
        write(xml, x + distance, y, words);
    }
    xml.close();
}

fn write(xml: &mut Xml, x: i32, y: i32, text: &str) {
    xml.text("text", format_args!(r#"x="{x}" y="{}""#, y + 4), text);
}
