//! Pictures.

use crate::support::{levels, read, vectors};
use crate::xml::well_formed;

/// What stands above the legend.
fn above_legend(svg: &str) -> &str {
    svg.split("<g class=\"legend\">").next().unwrap_or_default()
}

fn count(svg: &str, what: &str) -> usize {
    above_legend(svg).matches(what).count()
}

#[test]
fn document_01_as_a_picture() {
    let svg = levels(&["draw"], &read("vectors/01/document-01.events")).text();
    assert_eq!(well_formed(&svg), Ok(()));
    assert_eq!(count(&svg, "class=\"arrow\""), 2);
    assert_eq!(count(&svg, "class=\"arrow beat\""), 1);
    assert_eq!(count(&svg, "class=\"stub\""), 3);
    assert_eq!(count(&svg, "class=\"number\""), 17);
    for node in
        ["site 0, partition 0", "site 0, partition 1", "site 1, partition 0", "site 1, partition 1"]
    {
        assert_eq!(count(&svg, &format!(">{node}<")), 1, "{node}");
    }
    assert_eq!(count(&svg, ">site 2, "), 0);
    for title in [
        "6. PUT session 0 key 5 quality 1 level -30 waits at node 0,1 until its clock has passed 100",
        "11. GET session 1 key 4 waits at node 1,0 for site 0 up to 101",
    ] {
        assert_eq!(count(&svg, &format!("<title>{title}</title>")), 1, "{title}");
    }
    assert_eq!((count(&svg, ">waits<"), count(&svg, ">&gt;100<")), (3, 1));
}

#[test]
fn the_example_is_up_to_date() {
    let svg = levels(&["draw"], &read("docs/example.events.txt")).text();
    let kept = String::from_utf8(read("docs/example.svg")).expect("text");
    let again = "levels draw docs/example.events.txt -o docs/example.svg";
    assert!(svg == kept, "docs/example.svg is not what the command draws: {again}");
    assert_eq!(count(&svg, "class=\"page\""), 1);
}

#[test]
fn as_many_arrows_as_deliveries() {
    for (bytes, out) in vectors() {
        let bytes = &bytes[..bytes.len() / 32 * 32];
        let svg = levels(&["draw", "--bytes"], bytes).text();
        assert_eq!(well_formed(&svg), Ok(()));
        let lines: Vec<Vec<&str>> = out.lines().map(|line| line.split(' ').collect()).collect();
        let delivered =
            lines.iter().filter(|values| values[1..] == ["10", "0", "0", "0", "0", "0"]);
        assert_eq!(count(&svg, "class=\"arrow"), delivered.count());
        assert_eq!(count(&svg, "class=\"number\""), bytes.len() / 32);
    }
}

#[test]
fn too_many_events_for_a_picture() {
    let done = levels(&["draw"], "BEAT 0,0\n".repeat(2000).as_bytes());
    assert_eq!(done.code, Some(0));
    let done = levels(&["draw"], "BEAT 0,0\n".repeat(2001).as_bytes());
    assert_eq!((done.code, done.bytes.len()), (Some(2), 0));
    assert_eq!(
        done.errors,
        "standard input: a picture shows at most 2000 events, and there are more\n"
    );
}

#[test]
fn an_empty_picture_is_one() {
    assert_eq!(well_formed(&levels(&["draw"], b"").text()), Ok(()));
}

/// The number of an attribute.
fn attribute(element: &str, name: &str) -> Option<i32> {
    let value = element.split_once(&format!(" {name}=\""))?.1;
    value.split('"').next()?.parse().ok()
}

#[test]
fn labels_do_not_touch() {
    for (bytes, _) in vectors() {
        let svg =
            levels(&["draw", "--bytes"], &bytes[..bytes.len().min(32 * 400) / 32 * 32]).text();
        let labels =
            above_legend(&svg).lines().filter(|line| line.starts_with("<text class=\"label\""));
        let mut by_line: std::collections::BTreeMap<i32, Vec<(i32, i32)>> = Default::default();
        for label in labels {
            let text =
                label.split_once('>').and_then(|(_, rest)| rest.split_once("</")).expect("text").0;
            let letters = text.replace("&gt;", ">").chars().count() as i32;
            let (x, y) = (attribute(label, "x").expect("x"), attribute(label, "y").expect("y"));
            by_line.entry(y).or_default().push((x - 3 * letters, x + 3 * letters));
        }
        for labels in by_line.values_mut() {
            labels.sort_unstable();
            assert!(labels.windows(2).all(|pair| pair[0].1 < pair[1].0), "{labels:?}");
        }
    }
}
