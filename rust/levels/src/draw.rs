//! A run as a space-time picture: an SVG with a line for each session and each node,
//! events from left to right, an arrow for each delivery.
//!
//! `travels` follows the messages, `marks` says what is drawn for an event, `rows`
//! and `columns` where it stands, and the rest draws it: `shapes`, `paths`, `legend`,
//! in the colours of `style`, through `xml`.

mod columns;
mod labels;
mod legend;
mod mark;
mod marks;
mod paths;
mod rows;
mod shapes;
mod spans;
mod style;
mod travels;
mod xml;

use crate::story::Happening;
use crate::words::{Sentence, counted};
use columns::Columns;
use mark::Mark;
use marks::marks_of;
use rows::Rows;
use spans::spans;
use style::{LEFT, NUMBERS, STYLE};
use travels::travels;
use xml::Xml;

/// How many events a picture shows at most.
pub const MOST_EVENTS: usize = 2000;

/// Where everything stands.
struct Plan<'a> {
    happenings: &'a [Happening],
    marks: Vec<Vec<Mark>>,
    rows: Rows,
    columns: Columns,
}

/// The picture of what happened, from the beginning of an archive on.
pub fn picture(happenings: &[Happening]) -> String {
    let travels = travels(happenings);
    let marks: Vec<Vec<Mark>> = happenings
        .iter()
        .enumerate()
        .map(|(event, happening)| marks_of(happening, &travels.left_over(event)))
        .collect();
    let rows = Rows::of(marks.iter().flatten().map(|mark| mark.row));
    let columns = Columns::of(&marks);
    let plan = Plan { happenings, marks, rows, columns };

    let width = plan.columns.width().max(legend::WIDTH);
    let legend_top = plan.rows.bottom();
    let height = legend_top + legend::HEIGHT;
    let mut xml = Xml::svg(width, height);
    let events = counted(happenings.len() as u64, "event");
    xml.text("title", "", &format!("{events} of a level archive"));
    xml.text("style", "", STYLE);
    xml.leaf("rect", format_args!(r##"width="{width}" height="{height}" fill="#fff""##));
    paths::arrow_heads(&mut xml);
    paths::lines(&mut xml, &plan);
    paths::guides(&mut xml, &plan);
    for span in spans(happenings) {
        paths::span(&mut xml, &plan, &span);
    }
    for travel in &travels.delivered {
        paths::arrow(&mut xml, &plan, travel);
    }
    for event in 0..happenings.len() {
        draw_event(&mut xml, &plan, event);
    }
    legend::draw(&mut xml, legend_top);
    xml.finish()
}

/// An event's number and its marks, which tell its sentence.
fn draw_event(xml: &mut Xml, plan: &Plan, event: usize) {
    let happening = &plan.happenings[event];
    let (x, number) = (plan.columns.x(event), happening.number);
    let place = format_args!(r#"class="number" x="{x}" y="{NUMBERS}""#);
    xml.text("text", place, &number.to_string());
    xml.open("g", "");
    xml.text("title", "", &format!("{number}. {}", Sentence(happening)));
    for mark in &plan.marks[event] {
        let y = plan.rows.y(mark.row);
        paths::stubs(xml, x, y, mark);
        shapes::draw(xml, x, y, mark.shape, mark.session);
        for (text, baseline) in mark.lines(y) {
            xml.text("text", format_args!(r#"class="label" x="{x}" y="{baseline}""#), text);
        }
    }
    xml.close();
}

impl Plan<'_> {
    /// Where an event's mark on a node stands.
    fn node_point(&self, event: usize) -> Option<(i32, i32)> {
        let mark = self.marks[event].iter().find(|mark| mark.row.is_node())?;
        Some((self.columns.x(event), self.rows.y(mark.row)))
    }

    /// The right end of all lines.
    fn right(&self) -> i32 {
        self.columns.width().max(LEFT)
    }
}
