//! The event file: one event at a time, from a place in the lent bytes.

use crate::table::{big_endian, FileRefusal, HEADER};

const TICK_TAG: u8 = 0x21;
const TICK_LENGTH: usize = 3;
const OFFER_TAG: u8 = 0x22;
const OFFER_LENGTH: usize = 4;

#[derive(Clone, Copy, Debug, PartialEq, Eq)]
pub enum Event {
    Tick { releases: u16, done: bool, soft: bool },
    Offer { budget: u16, deadline: u16 },
}

/// What the reader finds at a place.
#[derive(Clone, Copy, Debug, PartialEq, Eq)]
pub enum Found {
    /// No bytes left.
    End,
    /// An event, and the size of its whole field.
    Event(Event, usize),
    Refused(FileRefusal),
}

/// Reads the event that starts at `place`: 1, 2, 3, 1 for the value, then 20.
pub fn read_event(file: &[u8], place: usize) -> Found {
    let left = &file[place..];
    let refuse = |number: u8, size: usize| {
        Found::Refused(FileRefusal { number, from: place, size, row: None })
    };

    if left.is_empty() {
        return Found::End;
    }
    if left.len() < HEADER {
        return refuse(1, left.len());
    }
    let tag = left[0];
    if tag != TICK_TAG && tag != OFFER_TAG {
        return refuse(2, HEADER);
    }
    let length = usize::from(big_endian(left[1], left[2]));
    let right_length = if tag == TICK_TAG { TICK_LENGTH } else { OFFER_LENGTH };
    if length != right_length {
        return refuse(3, HEADER);
    }
    if left.len() < HEADER + length {
        return refuse(1, left.len());
    }

    let size = HEADER + length;
    let value = &left[HEADER..size];
    if tag == OFFER_TAG {
        let budget = big_endian(value[0], value[1]);
        let deadline = big_endian(value[2], value[3]);
        return Found::Event(Event::Offer { budget, deadline }, size);
    }
    let releases = big_endian(value[0], value[1]);
    // Bit 0 is done and bit 1 is soft, so the flags that may be are 0 to 3.
    let (done, soft) = match value[2] {
        0 => (false, false),
        1 => (true, false),
        2 => (false, true),
        3 => (true, true),
        _ => return refuse(20, size),
    };
    Found::Event(Event::Tick { releases, done, soft }, size)
}

/// The bytes of a tick event, whatever the flags.
pub fn tick_field(releases: u16, flags: u8) -> Vec<u8> {
    let high = (releases / 256) as u8;
    let low = (releases % 256) as u8;
    vec![TICK_TAG, 0, TICK_LENGTH as u8, high, low, flags]
}

/// The bytes of an offer event.
pub fn offer_field(budget: u16, deadline: u16) -> Vec<u8> {
    let mut bytes = vec![OFFER_TAG, 0, OFFER_LENGTH as u8];
    for number in [budget, deadline] {
        bytes.push((number / 256) as u8);
        bytes.push((number % 256) as u8);
    }
    bytes
}

#[cfg(test)]
mod tests {
    use super::*;

    fn refused(number: u8, from: usize, size: usize) -> Found {
        Found::Refused(FileRefusal { number, from, size, row: None })
    }

    #[test]
    fn events_one_at_a_time() {
        let mut file = tick_field(0x8001, 3);
        file.extend(offer_field(258, 65535));
        let tick = Event::Tick { releases: 0x8001, done: true, soft: true };
        let offer = Event::Offer { budget: 258, deadline: 65535 };
        assert_eq!(read_event(&file, 0), Found::Event(tick, 6));
        assert_eq!(read_event(&file, 6), Found::Event(offer, 7));
        assert_eq!(read_event(&file, 13), Found::End);
    }

    #[test]
    fn refusal_1() {
        assert_eq!(read_event(&[0x77], 0), refused(1, 0, 1));
        assert_eq!(read_event(&[9, 9, 0x21, 0], 2), refused(1, 2, 2));
        assert_eq!(read_event(&[0x21, 0, 3], 0), refused(1, 0, 3));
        assert_eq!(read_event(&[0x22, 0, 4, 0, 1, 0], 0), refused(1, 0, 6));
    }

    #[test]
    fn refusal_2() {
        assert_eq!(read_event(&[0x23, 0, 3, 0, 0, 0], 0), refused(2, 0, 3));
    }

    #[test]
    fn refusal_3() {
        assert_eq!(read_event(&[0x21, 0, 4, 0, 0, 0, 0], 0), refused(3, 0, 3));
        assert_eq!(read_event(&[0x22, 1, 4, 0, 0, 0, 0], 0), refused(3, 0, 3));
    }

    #[test]
    fn refusal_20_is_for_a_whole_event() {
        for flags in 4..=255 {
            assert_eq!(read_event(&tick_field(1, flags), 0), refused(20, 0, 6));
        }
        assert_eq!(read_event(&tick_field(1, 4)[..5], 0), refused(1, 0, 5));
    }
}
