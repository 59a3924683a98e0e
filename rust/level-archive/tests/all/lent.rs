//! Own and lent tables: setup, a table made earlier, bytes given back.

use level_archive::{Answer, Archive, Event, Quality, Refusal, TABLE_BYTES};

#[test]
fn setup_takes_1_to_4_and_gives_refused_bytes_back() {
    for sites in 0..7 {
        for partitions in 0..7 {
            let lawful = (1..=4).contains(&sites) && (1..=4).contains(&partitions);
            let refused = (!lawful).then_some(Refusal::OutOfRange);
            assert_eq!(Archive::new(sites, partitions).err(), refused);
            let bytes = vec![7; TABLE_BYTES];
            match Archive::setup(bytes.clone(), sites, partitions) {
                Ok(archive) => assert!(lawful && archive.view().is_ok()),
                Err(error) => {
                    assert_eq!(Some(error.refusal()), refused);
                    assert!(error.into_bytes() == bytes);
                }
            }
        }
    }
    let short = Archive::setup([7; 100], 2, 2).expect_err("too short");
    assert_eq!(short.to_string(), Refusal::WrongLength.to_string());
    assert_eq!((short.refusal(), short.into_bytes()), (Refusal::WrongLength, [7; 100]));
}

#[test]
fn a_table_made_earlier_goes_on() {
    let mut earlier = Archive::new(2, 2).expect("lawful numbers");
    let events =
        [Event::open(3, 1), Event::clock(1, 1, 8), Event::put(3, 5, Quality::Estimated, 9)];
    assert!(earlier.run(&events).iter().all(|answer| answer.number() == 0));
    let mut kept = earlier.clone().into_bytes().to_vec(); // as a file would keep them
    let mut later = Archive::over(&mut kept[..]);
    let shown = later.step(&Event::get(3, 5));
    assert_eq!(shown, earlier.step(&Event::get(3, 5)));
    assert_eq!(shown.to_string(), "9 mm, estimated, site 1 at 8");
    assert!(later.as_bytes() == earlier.as_bytes());
}

#[test]
fn bytes_that_are_no_table_are_refused_at_each_call() {
    for (bytes, refusal) in
        [(vec![], Refusal::WrongLength), (vec![9; TABLE_BYTES], Refusal::IllFormed)]
    {
        let mut archive = Archive::over(bytes.clone());
        assert_eq!(archive.step(&Event::close(0)), Answer::Refused(refusal));
        let answers = archive.run(&[Event::close(0), Event::open(0, 0)]);
        assert_eq!(answers, [Answer::Refused(refusal); 2]);
        assert_eq!(archive.view().err(), Some(refusal));
        assert!(archive.into_bytes() == bytes);
    }
}
