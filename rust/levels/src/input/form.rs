//! Text or bytes?

/// How events are written.
#[derive(Clone, Copy, Debug, PartialEq, Eq)]
pub enum Form {
    /// One event a line.
    Text,
    /// 32 bytes an event.
    Bytes,
}

/// How much of the input decides: one event.
pub const LOOKED_AT: u64 = 32;

impl Form {
    /// Bytes, if the input's first 32 bytes hold a control character other than
    /// tab, line feed and carriage return. Text has none, and every event that can
    /// be written as text ends in four zeros.
    ///
    /// The first byte alone would not do: BEAT's code is a tab, DELIVER's a line feed.
    pub fn of(beginning: &[u8]) -> Form {
        let bytes = beginning
            .iter()
            .any(|byte| byte.is_ascii_control() && !matches!(byte, b'\t' | b'\n' | b'\r'));
        if bytes { Form::Bytes } else { Form::Text }
    }
}

#[cfg(test)]
mod tests {
    use level_archive::Event;

    use super::*;

    #[test]
    fn each_event_is_known_by_its_zeros() {
        for event in [Event::beat(9, 10), Event::deliver(10, 13, 9), Event::open(65, 66)] {
            assert_eq!(Form::of(&event.to_bytes()), Form::Bytes);
            assert_eq!(Form::of(event.to_string().as_bytes()), Form::Text);
        }
        assert_eq!(Form::of(b""), Form::Text);
        assert_eq!(Form::of("\r\n\t# −30 at site 2\n".as_bytes()), Form::Text);
    }
}
