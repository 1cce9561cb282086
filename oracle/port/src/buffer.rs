//! What is lent to the library, and places around it. Blank places hold a pattern, so that it shows
//! which of them were written.
use gateway::PositionSyntax;

/// Blank places before those that are lent, and as many after them.
const MARGIN: usize = 8;

pub trait Blank: PartialEq {
    /// What a place holds while it is blank.
    fn blank(i: usize) -> Self;
}

/// A word of recorded fields.
impl Blank for u64 {
    fn blank(i: usize) -> Self {
        0xa5a5_a5a5_0000_0000 | i as u64
    }
}

/// A byte of a text, but never of one in ASCII; and of a packet, the last bit of which is to be 0 where
/// it is left over.
impl Blank for u8 {
    fn blank(i: usize) -> Self {
        0x81 | (i % 64 << 1) as u8
    }
}

/// A shape, but none that a reading makes.
impl Blank for PositionSyntax {
    fn blank(i: usize) -> Self {
        Self {
            parent_dynamic: i.is_multiple_of(2),
            range_dynamic: i.is_multiple_of(3),
            position_precision: 100 + i,
            rotation_precision: 200 + i,
            parent: 300 + i,
            polar: i.is_multiple_of(5),
        }
    }
}

pub struct Buffer<T> {
    places: Vec<T>,
    room: usize,
}

impl<T: Blank> Buffer<T> {
    /// Lends so many blank places.
    pub fn blank(room: usize) -> Self {
        let places = (0..MARGIN + room + MARGIN).map(T::blank).collect();
        Self { places, room }
    }

    /// Lends places that hold this.
    pub fn holding(lent: Vec<T>) -> Self {
        let mut buffer = Self::blank(lent.len());
        for (place, value) in buffer.lent().iter_mut().zip(lent) {
            *place = value;
        }
        buffer
    }

    pub fn lent(&mut self) -> &mut [T] {
        &mut self.places[MARGIN..][..self.room]
    }

    /// All lent places. Those around them must be blank.
    pub fn held(&self) -> Result<&[T], String> {
        self.written(self.room)
    }

    /// The first so many lent places. All other places must be blank.
    pub fn written(&self, count: usize) -> Result<&[T], String> {
        if count > self.room {
            return Err(format!("{count} places in a room for {}", self.room));
        }
        let end = MARGIN + count;
        let mut others = (0..MARGIN).chain(end..self.places.len());
        match others.find(|&i| self.places[i] != T::blank(i)) {
            Some(i) if i < MARGIN => Err(format!("a place {} before was written", MARGIN - i)),
            Some(i) => Err(format!("place {} was written, after {count}", i - MARGIN)),
            None => Ok(&self.places[MARGIN..end]),
        }
    }
}

#[cfg(test)]
mod tests {
    use super::*;

    #[test]
    fn written_places_are_given_back() {
        let mut buffer = Buffer::blank(7);
        buffer.lent()[..5].copy_from_slice(b"count");
        assert_eq!(buffer.written(5), Ok(b"count".as_slice()));
    }

    #[test]
    fn held_places_are_lent_and_given_back() {
        let mut buffer = Buffer::holding(vec![3, 4]);
        assert_eq!(buffer.lent(), [3, 4]);
        buffer.lent()[1] = 5_u64;
        assert_eq!(buffer.held(), Ok([3, 5].as_slice()));
        assert!(buffer.written(1).is_err());
    }

    #[test]
    fn other_places_are_held_to_the_pattern() {
        for (place, least) in [
            (7, None),
            (8, Some(1)),
            (14, Some(7)),
            (15, None),
            (22, None),
        ] {
            let mut buffer = Buffer::<u64>::blank(7);
            assert!(buffer.written(0).is_ok());
            buffer.places[place] = 0;
            let written = (0..=7).find(|&count| buffer.written(count).is_ok());
            assert_eq!(written, least, "place {place}");
        }
    }

    #[test]
    fn written_places_must_have_room() {
        assert!(Buffer::<u8>::blank(9).written(9).is_ok());
        assert!(Buffer::<u8>::blank(9).written(10).is_err());
    }
}
