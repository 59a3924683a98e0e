//! Events: their bytes, there and back, and their words.

use level_archive::{Archive, Event, EventError, PageKeys, ParseEventError, Quality, TooManyKeys};
use plain::make;

/// Every event once, with the bytes that the other implementation makes of it, its
/// name and its words.
fn each() -> [(Event, [u8; 32], &'static str); 12] {
    let page = Event::begin(15, 2, &[63, 0, 7]).expect("three keys");
    let full = Event::begin(0, 0, &[1, 2, 3, 4, 5, 6, 7, 8]).expect("eight keys");
    let empty = Event::begin(1, 3, &[]).expect("no key");
    let last = (1 << 48) - 1;
    [
        (Event::open(14, 3), make::open(14, 3), "OPEN session 14 site 3"),
        (Event::close(9), make::close(9), "CLOSE session 9"),
        (Event::clock(1, 2, last), make::clock(1, 2, last), "CLOCK 1,2 at 281474976710655"),
        (Event::get(4, 63), make::get(4, 63), "GET session 4 key 63"),
        (
            Event::put(5, 6, Quality::Estimated, i32::MIN),
            make::put(5, 6, 2, i32::MIN),
            "PUT session 5 key 6 quality 2 level -2147483648",
        ),
        (page, make::begin(15, 2, &[63, 0, 7]), "BEGIN session 15 partition 2 keys 63 0 7"),
        (
            full,
            make::begin(0, 0, &[1, 2, 3, 4, 5, 6, 7, 8]),
            "BEGIN session 0 partition 0 keys 1 2 3 4 5 6 7 8",
        ),
        (empty, make::begin(1, 3, &[]), "BEGIN session 1 partition 3 keys"),
        (Event::read(7, 200), make::read(7, 200), "READ session 7 key 200"),
        (Event::end(255), make::end(255), "END session 255"),
        (Event::beat(3, 1), make::beat(3, 1), "BEAT 3,1"),
        (Event::deliver(2, 0, 3), make::deliver(2, 0, 3), "DELIVER from 2 to 0 partition 3"),
    ]
}

#[test]
fn bytes_are_document_01s() {
    for (event, bytes, words) in each() {
        assert_eq!(event.to_bytes(), bytes, "{event}");
        assert_eq!(Event::try_from(&bytes[..]), Ok(event));
        assert_eq!(event.to_string(), words);
        assert_eq!(words.parse(), Ok(event));
        assert_eq!(format!("\t{} ", words.to_lowercase().replace('-', "−")).parse(), Ok(event));
        assert_eq!(event.code(), bytes[0]);
        assert!(words.starts_with(event.name()));
        assert_eq!(event.session(), words.contains("session").then_some(bytes[3]));
    }
}

#[test]
fn other_bytes_are_named() {
    let page = make::begin(1, 2, &[3]);
    assert_eq!(Event::try_from(&page[..31]), Err(EventError::WrongLength));
    assert_eq!(Event::try_from(&[0; 33][..]), Err(EventError::WrongLength));
    for code in (0..=0).chain(11..=255) {
        let bytes = std::array::from_fn::<u8, 32, _>(|place| if place == 0 { code } else { 255 });
        assert_eq!(Event::try_from(&bytes[..]), Err(EventError::UnknownCode(code)));
    }
    for count in 9..=255 {
        let bytes =
            std::array::from_fn::<u8, 32, _>(|place| if place == 7 { count } else { page[place] });
        assert_eq!(Event::try_from(&bytes[..]), Err(EventError::CountTooLarge(count)));
    }
}

/// Any other byte at any place of any event: either another event, whose bytes
/// these are, or an error which the archive has a refusal for.
#[test]
fn exactly_the_bytes_of_events_are_taken() {
    let mut archive = Archive::new(4, 4).expect("lawful numbers");
    for (_, bytes, _) in each() {
        for place in 0..32 {
            for byte in [0, 1, 4, 8, 9, 16, 64, 128, 255] {
                let mut other = bytes;
                other[place] = byte;
                let number = archive.step_bytes(&other).number();
                match Event::try_from(&other[..]) {
                    Ok(event) => {
                        assert!(event.to_bytes() == other && number != 10);
                        assert_eq!(event.to_string().parse(), Ok(event));
                    }
                    Err(EventError::UnknownCode(code)) => assert!(code == other[0] && number == 10),
                    Err(EventError::WrongLength) => panic!("32 bytes"),
                    Err(_) => assert_eq!(number, 11),
                }
            }
        }
    }
}

#[test]
fn pages_have_at_most_8_keys() {
    assert_eq!(Event::begin(0, 0, &[1; 9]), Err(TooManyKeys));
    assert_eq!(PageKeys::try_from(&[1; 9][..]), Err(TooManyKeys));
    for count in 0..=8 {
        let keys: Vec<u8> = (1..=count).collect();
        let page = PageKeys::new(&keys).expect("at most 8");
        assert_eq!((page.as_slice(), page.count()), (&keys[..], count));
    }
}

#[test]
fn errors_have_words() {
    assert_eq!(TooManyKeys.to_string(), "a page has at most 8 keys");
    assert_eq!(EventError::WrongLength.to_string(), "an event is 32 bytes");
    assert_eq!(EventError::UnknownCode(11).to_string(), "no event has the code 11");
    assert_eq!(EventError::CountTooLarge(9).to_string(), "a page has at most 8 keys, not 9");
}

#[test]
fn other_texts_are_named() {
    let long = "x".repeat(1000);
    let cut = format!("{}... is not an event", "x".repeat(40));
    let bad = [
        (" ", 1, "expected an event, found the end of the line"),
        ("\u{1b}[2J", 1, "\\u{1b}[2J is not an event"),
        (&long, 1, &cut),
        ("  OPEN session 0 site 0 at", 25, "expected the end of the line, found at"),
        ("CLOCK 0,1 at", 13, "time has no number"),
        ("CLOCK −,1 at 5", 7, "site − is not a number"),
        ("CLOCK −1,x at 5", 7, "site −1 does not fit in one byte, 0 to 255"),
        ("PUT session 0 key 4 level 99999999999999999999999999999999999999999", 27, "level 9"),
    ];
    for (text, column, message) in bad {
        let error: ParseEventError = text.parse::<Event>().expect_err(text);
        assert_eq!(error.column, column, "{error}");
        assert!(error.message.starts_with(message), "{error}");
    }
    for number in ["", "-", "+1", "1x", "0x10", "1.5", "--1", "１"] {
        assert!(format!("END session {number}").parse::<Event>().is_err(), "{number}");
    }
    assert_eq!("end session 007".parse(), Ok(Event::end(7)));
}
