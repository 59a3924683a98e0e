//! The shapes of marks.

use super::style::{HALF_MARK, colour};
use super::xml::Xml;

/// A mark's shape.
#[derive(Clone, Copy, Debug, PartialEq, Eq)]
pub enum Shape {
    /// PUT.
    Square {
        /// It waits.
        hollow: bool,
    },
    /// GET.
    Circle {
        /// It waits.
        hollow: bool,
    },
    /// READ.
    Diamond {
        /// It waits.
        hollow: bool,
    },
    /// BEAT.
    Triangle {
        /// Nothing was sent.
        hollow: bool,
    },
    /// BEGIN, at the coordinator.
    Bracket,
    /// CLOCK.
    Tick,
    /// DELIVER, and what a session does elsewhere.
    Dot,
    /// OPEN.
    Ring,
    /// CLOSE.
    Bar,
    /// What is refused.
    Cross,
}

/// Draws a mark.
pub fn draw(xml: &mut Xml, x: i32, y: i32, shape: Shape, session: Option<u8>) {
    let fill = colour(session).fill;
    match shape {
        Shape::Square { hollow } => outline(xml, square(x, y), x, y, session, hollow),
        Shape::Circle { hollow } => outline(xml, circle(x, y), x, y, session, hollow),
        Shape::Diamond { hollow } => outline(xml, diamond(x, y), x, y, session, hollow),
        Shape::Triangle { hollow } => outline(xml, triangle(x, y), x, y, None, hollow),
        Shape::Bracket => stroke(xml, &format!("M{} {}h-6v18h6", x + 3, y - 9), fill, 3),
        Shape::Tick => stroke(xml, &format!("M{x} {}v10", y - 5), "#555", 2),
        Shape::Bar => stroke(xml, &format!("M{x} {}v12", y - 6), fill, 4),
        Shape::Cross => stroke(xml, &format!("M{} {}l6 6m0 -6l-6 6", x - 3, y - 3), "#777", 2),
        Shape::Dot => {
            xml.leaf("circle", format_args!(r#"cx="{x}" cy="{y}" r="3" fill="{fill}""#));
        }
        Shape::Ring => xml.leaf(
            "circle",
            format_args!(
                r##"cx="{x}" cy="{y}" r="5" fill="#fff" stroke="{fill}" stroke-width="3""##
            ),
        ),
    }
}

/// A closed outline, filled or hollow, with the session's number in it.
fn outline(xml: &mut Xml, path: String, x: i32, y: i32, session: Option<u8>, hollow: bool) {
    let colour = colour(session);
    let (fill, ink) = if hollow { ("#fff", "#222") } else { (colour.fill, colour.ink) };
    let stroke = colour.fill;
    xml.leaf(
        "path",
        format_args!(r#"d="{path}" fill="{fill}" stroke="{stroke}" stroke-width="2""#),
    );
    if let Some(session) = session {
        let place = format_args!(r#"class="inside" x="{x}" y="{}" style="fill: {ink}""#, y + 4);
        xml.text("text", place, &session.to_string());
    }
}

fn stroke(xml: &mut Xml, path: &str, colour: &str, width: i32) {
    xml.leaf(
        "path",
        format_args!(r#"d="{path}" fill="none" stroke="{colour}" stroke-width="{width}""#),
    );
}

fn square(x: i32, y: i32) -> String {
    let side = 2 * (HALF_MARK - 1);
    format!("M{} {}h{side}v{side}h-{side}z", x - HALF_MARK + 1, y - HALF_MARK + 1)
}

fn circle(x: i32, y: i32) -> String {
    let (radius, across) = (HALF_MARK, 2 * HALF_MARK);
    format!(
        "M{} {y}a{radius} {radius} 0 1 0 {across} 0a{radius} {radius} 0 1 0 -{across} 0z",
        x - radius
    )
}

fn diamond(x: i32, y: i32) -> String {
    let half = HALF_MARK + 2;
    format!("M{} {y}l{half} {half}l{half} -{half}l-{half} -{half}z", x - half)
}

fn triangle(x: i32, y: i32) -> String {
    format!("M{} {}h12l-6 -11z", x - 6, y + 5)
}
