//! A reading's quality.

use core::error::Error;
use core::fmt;

/// How a level came to be known.
///
/// ```
/// use level_archive::Quality;
///
/// assert_eq!(Quality::try_from(1), Ok(Quality::Corrected));
/// assert_eq!(Quality::try_from(3).unwrap_err().to_string(), "no quality has the number 3");
/// assert_eq!(Quality::Estimated.to_string(), "estimated");
/// ```
#[derive(Clone, Copy, Debug, Default, PartialEq, Eq, PartialOrd, Ord, Hash)]
#[repr(u8)]
pub enum Quality {
    /// 0: read from the gauge.
    #[default]
    Measured = 0,
    /// 1: put right afterwards.
    Corrected = 1,
    /// 2: worked out without the gauge.
    Estimated = 2,
}

impl Quality {
    /// Its number, 0 to 2.
    pub const fn number(self) -> u8 {
        self as u8
    }
}

impl TryFrom<u8> for Quality {
    type Error = UnknownNumber;

    fn try_from(number: u8) -> Result<Quality, UnknownNumber> {
        match number {
            0 => Ok(Quality::Measured),
            1 => Ok(Quality::Corrected),
            2 => Ok(Quality::Estimated),
            _ => Err(UnknownNumber { of: "quality", number }),
        }
    }
}

impl From<Quality> for u8 {
    fn from(quality: Quality) -> u8 {
        quality.number()
    }
}

impl fmt::Display for Quality {
    fn fmt(&self, f: &mut fmt::Formatter<'_>) -> fmt::Result {
        f.pad(match self {
            Quality::Measured => "measured",
            Quality::Corrected => "corrected",
            Quality::Estimated => "estimated",
        })
    }
}

/// A number that no quality or no refusal has.
#[derive(Clone, Copy, Debug, PartialEq, Eq, Hash)]
pub struct UnknownNumber {
    /// What does not have it: `quality` or `refusal`.
    pub of: &'static str,
    /// The number.
    pub number: u8,
}

impl fmt::Display for UnknownNumber {
    fn fmt(&self, f: &mut fmt::Formatter<'_>) -> fmt::Result {
        write!(f, "no {} has the number {}", self.of, self.number)
    }
}

impl Error for UnknownNumber {}
