//! The archive over its table. What a call answers, the proved core decides.

use alloc::boxed::Box;
use alloc::vec;
use alloc::vec::Vec;
use core::error::Error;
use core::fmt;

use crate::answer::Answer;
use crate::event::Event;
use crate::refusal::Refusal;
use crate::view::View;
use crate::{ANSWER_BYTES, EVENT_BYTES, TABLE_BYTES, sys};

/// The archive over its table. It owns the bytes (`Archive`, which is
/// `Archive<Box<[u8]>>`) or borrows them (`Archive<&mut [u8]>`).
///
/// ```
/// use level_archive::{Answer, Archive, Event, Quality};
///
/// let mut archive = Archive::new(2, 1)?;
/// archive.step(&Event::open(0, 0)).result()?;
/// archive.step(&Event::clock(0, 0, 100)).result()?;
/// let answer = archive.step(&Event::put(0, 7, Quality::Measured, 1250));
/// assert_eq!(answer, Answer::Written { source: 0, stamp: 100 });
/// assert_eq!(archive.step(&Event::get(0, 7)).to_string(), "1250 mm, measured, site 0 at 100");
/// # Ok::<(), level_archive::Refusal>(())
/// ```
#[derive(Clone, PartialEq, Eq)]
pub struct Archive<B = Box<[u8]>> {
    bytes: B,
}

impl Archive {
    /// An empty archive with a table of its own. Refuses a number that isn't 1 to 4.
    pub fn new(sites: u32, partitions: u32) -> Result<Archive, Refusal> {
        Ok(Archive::setup(vec![0; TABLE_BYTES].into_boxed_slice(), sites, partitions)?)
    }
}

impl<B: AsRef<[u8]> + AsMut<[u8]>> Archive<B> {
    /// Makes lent bytes empty, whatever lay in them. On refusal (23, 11) they come
    /// back unchanged.
    ///
    /// ```
    /// use level_archive::{Archive, Refusal, TABLE_BYTES};
    ///
    /// let mut bytes = vec![0xff; TABLE_BYTES];
    /// let archive = Archive::setup(&mut bytes[..], 4, 4)?;
    /// assert_eq!(archive.as_bytes()[..3], [4, 4, 0]);
    ///
    /// let error = Archive::setup([7; 3], 4, 4).unwrap_err();
    /// assert_eq!(error.refusal(), Refusal::WrongLength);
    /// assert_eq!(error.into_bytes(), [7; 3]);
    /// # Ok::<(), Refusal>(())
    /// ```
    pub fn setup(mut bytes: B, sites: u32, partitions: u32) -> Result<Archive<B>, SetupError<B>> {
        match Answer::of_core(sys::setup(bytes.as_mut(), sites, partitions)).result() {
            Ok(_) => Ok(Archive { bytes }),
            Err(refusal) => Err(SetupError { refusal, bytes }),
        }
    }

    /// Over a table made earlier (a file, shared memory). Nothing is checked here:
    /// each call checks it, and answers 23 or 24. A table that a version before 0.3.0
    /// left keeps no newest records: if it holds a record, it is refused with 24.
    ///
    /// ```
    /// use level_archive::{Answer, Archive, Event, Refusal};
    ///
    /// let mut archive = Archive::over(vec![0; 100]);
    /// assert_eq!(archive.step(&Event::open(0, 0)), Answer::Refused(Refusal::WrongLength));
    /// ```
    pub fn over(bytes: B) -> Archive<B> {
        Archive { bytes }
    }

    /// One event. The whole table is checked first; [`run`](Archive::run) checks it
    /// once for many.
    #[must_use = "the event may have to wait, or be refused"]
    pub fn step(&mut self, event: &Event) -> Answer {
        self.step_bytes(&event.to_bytes())
    }

    /// One event's bytes; any bytes.
    #[must_use = "the event may have to wait, or be refused"]
    pub fn step_bytes(&mut self, event: &[u8]) -> Answer {
        Answer::of_core(sys::step(self.bytes.as_mut(), event))
    }

    /// Many events: what [`step`](Archive::step) gives one by one.
    ///
    /// ```
    /// use level_archive::{Answer, Archive, Event};
    ///
    /// let mut archive = Archive::new(1, 1)?;
    /// let answers = archive.run(&[Event::open(0, 0), Event::get(0, 9)]);
    /// assert_eq!(answers, [Answer::Done, Answer::Nothing]);
    /// # Ok::<(), level_archive::Refusal>(())
    /// ```
    #[must_use = "events may have to wait, or be refused"]
    pub fn run(&mut self, events: &[Event]) -> Vec<Answer> {
        let bytes: Vec<u8> = events.iter().flat_map(|event| event.to_bytes()).collect();
        self.run_bytes(&bytes)
    }

    /// Many events' bytes. A left-over piece at the end is an event that isn't 32
    /// bytes, and gets 23.
    #[must_use = "events may have to wait, or be refused"]
    pub fn run_bytes(&mut self, events: &[u8]) -> Vec<Answer> {
        let mut answers = vec![0; events.len().div_ceil(EVENT_BYTES) * ANSWER_BYTES];
        self.run_into(events, &mut answers);
        answers.chunks(ANSWER_BYTES).map(Answer::of_core).collect()
    }

    /// Many events' bytes, straight to the core: 16 bytes an answer, for as many
    /// events as there is room for; their number is given back.
    ///
    /// ```
    /// use level_archive::{Answer, Archive, Event, Refusal};
    ///
    /// let mut archive = Archive::new(1, 1)?;
    /// let events = [Event::open(0, 0).to_bytes(), Event::open(0, 0).to_bytes()].concat();
    /// let mut answers = [0; 32];
    /// assert_eq!(archive.run_into(&events, &mut answers), 2);
    /// assert_eq!(Answer::try_from(&answers[16..]), Ok(Answer::Refused(Refusal::AlreadyOpen)));
    /// # Ok::<(), Refusal>(())
    /// ```
    pub fn run_into(&mut self, events: &[u8], answers: &mut [u8]) -> usize {
        sys::run(self.bytes.as_mut(), events, answers)
    }

    /// The table's bytes.
    pub fn as_bytes(&self) -> &[u8] {
        self.bytes.as_ref()
    }

    /// The table's bytes, given back.
    pub fn into_bytes(self) -> B {
        self.bytes
    }

    /// What the table says, read only: see [`View::new`].
    pub fn view(&self) -> Result<View<'_>, Refusal> {
        View::new(self.as_bytes())
    }
}

impl<B: AsRef<[u8]>> fmt::Debug for Archive<B> {
    fn fmt(&self, f: &mut fmt::Formatter<'_>) -> fmt::Result {
        match View::new(self.bytes.as_ref()) {
            Ok(view) => write!(f, "Archive({view:?})"),
            Err(_) => write!(f, "Archive({} bytes)", self.bytes.as_ref().len()),
        }
    }
}

/// A refused [`setup`](Archive::setup): why, and the bytes, unchanged.
#[derive(Clone, Copy, PartialEq, Eq)]
pub struct SetupError<B> {
    refusal: Refusal,
    bytes: B,
}

impl<B> SetupError<B> {
    /// Why it was refused.
    pub fn refusal(&self) -> Refusal {
        self.refusal
    }

    /// The bytes, given back.
    pub fn into_bytes(self) -> B {
        self.bytes
    }
}

impl<B> From<SetupError<B>> for Refusal {
    fn from(error: SetupError<B>) -> Refusal {
        error.refusal
    }
}

impl<B> fmt::Debug for SetupError<B> {
    fn fmt(&self, f: &mut fmt::Formatter<'_>) -> fmt::Result {
        write!(f, "SetupError({:?})", self.refusal)
    }
}

impl<B> fmt::Display for SetupError<B> {
    fn fmt(&self, f: &mut fmt::Formatter<'_>) -> fmt::Result {
        self.refusal.fmt(f)
    }
}

impl<B> Error for SetupError<B> {}
