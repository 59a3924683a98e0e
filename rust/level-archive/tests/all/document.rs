//! The 17 events of vectors/01/document-01.events through the typed face give their 17 lines.

use level_archive::{Answer, Archive, Event, Quality};

/// The events, each as text and with its line after the place.
fn document() -> Vec<(Event, &'static str, &'static str)> {
    vec![
        (Event::open(0, 0), "OPEN session 0 site 0", "1 0 0 0 0 0"),
        (Event::open(1, 1), "OPEN session 1 site 1", "1 0 0 0 0 0"),
        (Event::clock(0, 0, 100), "CLOCK 0,0 at 100", "3 0 0 0 0 0"),
        (
            Event::put(0, 4, Quality::Measured, 1250),
            "PUT session 0 key 4 level 1250",
            "5 0 0 0 0 100",
        ),
        (Event::clock(0, 1, 100), "CLOCK 0,1 at 100", "3 0 0 0 0 0"),
        (
            Event::put(0, 5, Quality::Corrected, -30),
            "PUT session 0 key 5 quality 1 level -30",
            "5 3 0 0 0 100",
        ),
        (Event::clock(0, 1, 101), "CLOCK 0,1 at 101", "3 0 0 0 0 0"),
        (
            Event::put(0, 5, Quality::Corrected, -30),
            "PUT session 0 key 5 quality 1 level -30",
            "5 0 0 0 0 101",
        ),
        (Event::deliver(0, 1, 1), "DELIVER from 0 to 1 partition 1", "10 0 0 0 0 0"),
        (Event::get(1, 5), "GET session 1 key 5", "4 1 0 1 -30 101"),
        (Event::get(1, 4), "GET session 1 key 4", "4 3 0 0 0 101"),
        (Event::deliver(0, 1, 0), "DELIVER from 0 to 1 partition 0", "10 0 0 0 0 0"),
        (Event::get(1, 4), "GET session 1 key 4", "4 3 0 0 0 101"),
        (Event::clock(0, 0, 101), "CLOCK 0,0 at 101", "3 0 0 0 0 0"),
        (Event::beat(0, 0), "BEAT 0,0", "9 0 0 0 0 0"),
        (Event::deliver(0, 1, 0), "DELIVER from 0 to 1 partition 0", "10 0 0 0 0 0"),
        (Event::get(1, 4), "GET session 1 key 4", "4 1 0 0 1250 100"),
    ]
}

fn line(event: &Event, answer: &Answer) -> String {
    format!("{} {}", event.code(), answer.values())
}

#[test]
fn one_by_one() {
    let mut archive = Archive::new(4, 4).expect("lawful numbers");
    for (event, words, expected) in document() {
        assert_eq!(event.to_string(), words);
        assert_eq!(line(&event, &archive.step(&event)), expected, "{event}");
    }
}

#[test]
fn all_at_once() {
    let mut archive = Archive::new(4, 4).expect("lawful numbers");
    let events: Vec<Event> = document().iter().map(|row| row.0).collect();
    let answers = archive.run(&events);
    let lines: Vec<String> = events.iter().zip(&answers).map(|(e, a)| line(e, a)).collect();
    let expected: Vec<&str> = document().iter().map(|row| row.2).collect();
    assert_eq!(lines, expected);
}

#[test]
fn as_the_gate_desk_reads_them() {
    let mut archive = Archive::new(4, 4).expect("lawful numbers");
    let events: Vec<Event> = document().iter().map(|row| row.0).collect();
    let answers = archive.run(&events);
    let words = |place: usize| answers[place - 1].to_string();
    let told = |place: usize| events[place - 1].told(answers[place - 1]).to_string();
    assert_eq!(words(1), "done");
    assert_eq!(words(4), "written, site 0 at 100");
    assert_eq!(words(6), "wait for site 0 (stamp 100), then try again");
    assert_eq!(told(6), "waits until the clock of site 0 has passed 100");
    assert_eq!(words(10), "-30 mm, corrected, site 0 at 101");
    assert_eq!(told(11), "waits for site 0 up to 101");
    assert_eq!(told(13), "waits for site 0 up to 101");
    assert_eq!(words(17), "1250 mm, measured, site 0 at 100");
    assert_eq!(archive.step(&Event::get(1, 8)).to_string(), "nothing recorded");
    assert_eq!(archive.step(&Event::end(1)).to_string(), "refused (15): no page is open");
}
