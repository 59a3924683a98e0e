//! Wild bytes: nothing panics, and what is refused changes nothing.

use level_archive::{Answer, Archive, Event, Refusal, TABLE_BYTES, View};
use plain::random::Random;

fn bytes(random: &mut Random, length: usize) -> Vec<u8> {
    (0..length).map(|_| random.bits() as u8).collect()
}

/// Looks at all that a view has, also where there is nothing.
fn look(view: &View) -> usize {
    let numbers = || [0, 1, 2, 3, 4, 15, 16, 255].into_iter();
    let mut seen = 0;
    for a in numbers() {
        seen += view.session(a).map_or(0, |session| session.page.map_or(1, |page| page.keys.len()));
        seen += usize::from(view.partition_of(a));
        for b in numbers() {
            seen += view.node(a, b).map_or(0, |node| node.records.len());
            seen += numbers()
                .filter_map(|c| view.channel(a, b, c))
                .map(|channel| channel.messages.len())
                .sum::<usize>();
        }
    }
    seen
}

#[test]
fn views_of_wild_tables() {
    let mut random = Random::new(1);
    let mut seen = 0;
    for turn in 0..300 {
        let mut table = bytes(&mut random, TABLE_BYTES);
        table[0] = (turn % 6) as u8;
        table[1] = (turn / 6 % 6) as u8;
        let lawful = (1..=4).contains(&table[0]) && (1..=4).contains(&table[1]);
        let view = View::try_from(&table[..]);
        assert_eq!(view.as_ref().err(), (!lawful).then_some(&Refusal::IllFormed));
        seen += view.map_or(0, |view| look(&view));
        assert_eq!(View::new(&table[1..]).err(), Some(Refusal::WrongLength));
    }
    assert!(seen > 10_000, "only {seen} things seen");
}

#[test]
fn wild_tables_are_refused_unchanged() {
    let mut random = Random::new(2);
    for _ in 0..200 {
        let length = *random.one_of(&[0, 1, 100, TABLE_BYTES - 1, TABLE_BYTES, TABLE_BYTES + 1]);
        let table = bytes(&mut random, length);
        let mut archive = Archive::over(table.clone());
        let refused = if length == TABLE_BYTES { 24 } else { 23 };
        let wild = bytes(&mut random, 97);
        assert_eq!(archive.step_bytes(&wild[..32]).number(), refused);
        assert_eq!(archive.step_bytes(&wild).number(), 23);
        let numbers: Vec<u8> = archive.run_bytes(&wild).into_iter().map(Answer::number).collect();
        assert_eq!(numbers, [refused, refused, refused, 23]);
        assert!(archive.into_bytes() == table);
    }
}

#[test]
fn wild_events_and_answers() {
    let mut random = Random::new(3);
    let mut archive = Archive::new(3, 2).expect("lawful numbers");
    for _ in 0..20_000 {
        let length = *random.one_of(&[0, 15, 16, 17, 31, 32, 32, 32, 33, 100]);
        let mut wild = bytes(&mut random, length);
        if let (Some(code), true) = (wild.first_mut(), random.chance(900)) {
            *code %= 12;
        }
        let number = archive.step_bytes(&wild).number();
        if let Ok(event) = Event::try_from(&wild[..]) {
            assert_eq!(event.to_bytes().to_vec(), wild);
            assert_eq!(event.to_string().parse(), Ok(event));
            assert!(!event.to_string().is_empty() && number != 10 && number != 23);
        }
        if let Ok(answer) = Answer::try_from(&wild[..]) {
            assert_eq!(answer.to_bytes().to_vec(), wild);
            assert!(!answer.to_string().is_empty());
        }
    }
    assert!(archive.view().is_ok_and(|view| look(&view) > 0));
}
