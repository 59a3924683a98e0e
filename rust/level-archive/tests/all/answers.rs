//! Answers and refusals: numbers, bytes and words.

use level_archive::{Answer, AnswerError, Event, Quality, Reading, Refusal, Values};

fn some_answers() -> Vec<Answer> {
    let quality = Quality::Estimated;
    let reading = Reading { source: 3, quality, level: -50_000, stamp: (1 << 48) - 1 };
    let mut answers = vec![
        Answer::Done,
        Answer::Written { source: 2, stamp: 7 },
        Answer::Value(reading),
        Answer::Value(Reading { source: 0, quality: Quality::Measured, level: 0, stamp: 0 }),
        Answer::Nothing,
        Answer::Wait { site: 0, stamp: 0 },
        Answer::Wait { site: 3, stamp: (1 << 48) - 1 },
    ];
    answers.extend(Refusal::ALL.iter().copied().map(Answer::Refused));
    answers
}

#[test]
fn values_and_bytes_go_there_and_back() {
    for answer in some_answers() {
        assert_eq!(Answer::try_from(answer.values()), Ok(answer));
        assert_eq!(Answer::try_from(&answer.to_bytes()[..]), Ok(answer));
        assert_eq!(answer.number(), answer.to_bytes()[0]);
    }
}

#[test]
fn what_the_archive_does_not_give_is_no_answer() {
    let none = |values| assert_eq!(Answer::try_from(values), Err(AnswerError));
    for number in (4..10).chain(25..=255) {
        none(Values { number, ..Values::default() });
        assert!(Refusal::try_from(number).is_err());
    }
    for number in (2..3).chain(10..25) {
        none(Values { number, stamp: 1, ..Values::default() });
        none(Values { number, source: 1, ..Values::default() });
    }
    for number in (2..4).chain(10..25) {
        none(Values { number, level: -1, ..Values::default() });
        none(Values { number, quality: 1, ..Values::default() });
    }
    for quality in 3..=255 {
        none(Values { number: 1, quality, ..Values::default() });
    }
    let mut bytes = Answer::Done.to_bytes();
    bytes[3] = 1;
    assert_eq!(Answer::try_from(&bytes[..]), Err(AnswerError));
    assert_eq!(Answer::try_from(&bytes[..15]), Err(AnswerError));
}

#[test]
fn refusals_have_the_numbers_10_to_24() {
    let numbers: Vec<u8> = Refusal::ALL.iter().map(|refusal| refusal.number()).collect();
    assert_eq!(numbers, (10..=24).collect::<Vec<u8>>());
    for refusal in Refusal::ALL {
        assert_eq!(Refusal::try_from(refusal.number()), Ok(*refusal));
        assert_eq!(Answer::Refused(*refusal).result(), Err(*refusal));
    }
}

#[test]
fn words() {
    let reading = Reading { source: 1, quality: Quality::Corrected, level: -5, stamp: 6 };
    assert_eq!(reading.to_string(), "-5 mm, corrected, site 1 at 6");
    let refused = Answer::Refused(Refusal::NodeFull);
    assert_eq!(refused.to_string(), "refused (22): the node holds 32 records");
    assert_eq!(refused.values().to_string(), "22 0 0 0 0");
    assert_eq!(format!("{:>6}|{:<6}|", Answer::Done, Answer::Done), "  done|done  |");
}

#[test]
fn a_wait_says_what_it_waits_for() {
    let wait = Answer::Wait { site: 0, stamp: 101 };
    assert_eq!(wait.values().to_string(), "3 0 0 0 101");
    assert_eq!(wait.to_bytes(), [3, 0, 0, 0, 0, 0, 0, 0, 101, 0, 0, 0, 0, 0, 0, 0]);
    assert_eq!(wait.to_string(), "wait for site 0 (stamp 101), then try again");
    assert_eq!(Answer::Wait { site: 3, stamp: 1 }.to_bytes()[..9], [3, 3, 0, 0, 0, 0, 0, 0, 1]);
}

#[test]
fn words_of_an_event_and_its_answer() {
    let wait = Answer::Wait { site: 2, stamp: 101 };
    let put = Event::put(0, 5, Quality::Measured, 7);
    assert_eq!(Event::get(0, 5).told(wait).to_string(), "waits for site 2 up to 101");
    assert_eq!(Event::read(0, 5).told(wait).to_string(), "waits for site 2 up to 101");
    assert_eq!(put.told(wait).to_string(), "waits until the clock of site 2 has passed 101");
    for answer in some_answers().into_iter().filter(|answer| answer.number() != 3) {
        for event in [Event::get(0, 5), Event::read(0, 5), put, Event::end(0)] {
            assert_eq!(event.told(answer).to_string(), answer.to_string());
        }
    }
    assert_eq!(format!("{:>6}|", put.told(Answer::Done)), "  done|");
}
