//! Lines, brackets and arrows.

use std::fmt::Display;

use level_archive::Message;

use super::Plan;
use super::labels::{page_text, stub_text};
use super::mark::{Mark, STUB_TEXT};
use super::rows::Row;
use super::spans::Span;
use super::style::{LEFT, colour};
use super::travels::Travel;
use super::xml::Xml;
use crate::words::{named, update};

/// The head of an arrow, in a box of 8 by 8 that ends at the arrow's end.
const HEAD: &str = r#"id="head" viewBox="0 0 8 8" refX="7" refY="4" markerWidth="8" markerHeight="8" markerUnits="userSpaceOnUse" orient="auto""#;
/// Faint.
const FAINT: &str = r#"stroke-opacity="0.5" stroke-dasharray="1 4""#;

/// The heads of arrows.
pub fn arrow_heads(xml: &mut Xml) {
    xml.open("defs", "");
    xml.open("marker", HEAD);
    xml.leaf("path", r##"d="M0 0.5L8 4L0 7.5z" fill="#333""##);
    xml.close();
    xml.close();
}

/// A path with an arrow's head.
pub fn headed(xml: &mut Xml, class: &str, path: impl Display) {
    xml.leaf("path", format_args!(r#"class="{class}" d="{path}" marker-end="url(#head)""#));
}

/// The names of the lines, and the lines of nodes; a session's own line is a span.
pub fn lines(xml: &mut Xml, plan: &Plan) {
    let right = plan.right();
    for &(row, y) in plan.rows.all() {
        xml.text("text", format_args!(r#"class="name" x="12" y="{}""#, y + 4), &row.name());
        let class = if row.is_node() { "node" } else { "quiet" };
        xml.leaf(
            "line",
            format_args!(r#"class="{class}" x1="{LEFT}" y1="{y}" x2="{right}" y2="{y}""#),
        );
    }
}

/// Faint lines from a session's line to what it does at nodes.
pub fn guides(xml: &mut Xml, plan: &Plan) {
    for (event, happening) in plan.happenings.iter().enumerate() {
        let Some((x, bottom)) = plan.node_point(event) else { continue };
        let Some(session) = happening.session() else { continue };
        let top = plan.rows.y(Row::Session(session));
        let stroke = colour(Some(session)).fill;
        let ends = format_args!(r#"x1="{x}" y1="{top}" x2="{x}" y2="{bottom}""#);
        xml.leaf("line", format_args!(r#"{ends} stroke="{stroke}" {FAINT}"#));
    }
}

/// A session's line, or the bracket of a page above it.
pub fn span(xml: &mut Xml, plan: &Plan, span: &Span) {
    let y = plan.rows.y(Row::Session(span.session));
    let begin = plan.columns.x(span.begin);
    let end = span.end.map_or(plan.right(), |event| plan.columns.x(event));
    let stroke = colour(Some(span.session)).fill;
    let Some(keys) = &span.page else {
        xml.leaf(
            "path",
            format_args!(r#"d="M{begin} {y}H{end}" stroke="{stroke}" stroke-width="2""#),
        );
        return;
    };
    let closing = if span.end.is_some() { "v7" } else { "" };
    let path = format!("M{begin} {}v-7H{end}{closing}", y - 4);
    xml.leaf(
        "path",
        format_args!(r#"class="page" d="{path}" fill="none" stroke="{stroke}" stroke-width="2""#),
    );
    xml.text("text", format_args!(r#"x="{begin}" y="{}""#, y - 15), &page_text(keys));
}

/// The arrow of a message that arrived.
pub fn arrow(xml: &mut Xml, plan: &Plan, travel: &Travel) {
    let (Some(from), Some(to)) = (plan.node_point(travel.sent), plan.node_point(travel.delivered))
    else {
        return;
    };
    let (class, what) = match &travel.message {
        Message::Update(record) => ("arrow", update(record)),
        Message::Heartbeat { source, stamp } => {
            ("arrow beat", format!("heartbeat with stamp {stamp} of site {source}"))
        }
    };
    xml.open("g", "");
    xml.text("title", "", &what);
    headed(xml, class, way(from, to));
    xml.close();
}

/// A straight way, or, where it would be steep and run through the labels below its
/// beginning, one that goes to the right first.
fn way(from: (i32, i32), to: (i32, i32)) -> String {
    let down = (to.1 - from.1).signum();
    let (x, y) = (to.0, to.1 - 4 * down);
    if to.0 - from.0 < 60 {
        format!("M{} {}Q{} {} {x} {y}", from.0 + 9, from.1, from.0 + 22, from.1)
    } else {
        format!("M{} {}L{x} {y}", from.0 + 7, from.1 + 7 * down)
    }
}

/// Short arrows for messages that are still on their way, with the sites' numbers.
pub fn stubs(xml: &mut Xml, x: i32, y: i32, mark: &Mark) {
    for (sites, down) in [(&mark.up, -1), (&mark.down, 1)] {
        if sites.is_empty() {
            continue;
        }
        let end = y + 6 * down;
        xml.open("g", "");
        xml.text("title", "", &format!("still on the way to {}", named("site", sites)));
        headed(xml, "stub", format_args!("M{} {y}L{} {end}", x + 9, x + 22));
        let place = format_args!(r#"class="to" x="{}" y="{}""#, x + STUB_TEXT, end + 3);
        xml.text("text", place, &stub_text(sites));
        xml.close();
    }
}
