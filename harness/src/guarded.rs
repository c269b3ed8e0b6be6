//! A lent buffer, or a lent run of numbers, with guards around it.

use std::sync::OnceLock;

use crate::draw::Draw;

/// Guard places on either side of the room.
pub const GUARD: usize = 64;

const PATTERN: usize = 1 << 18;

/// Bytes that buffers are filled from, each from another place.
fn pattern() -> &'static [u8] {
    static BYTES: OnceLock<Vec<u8>> = OnceLock::new();
    BYTES.get_or_init(|| {
        let mut draw = Draw::new(0);
        (0..PATTERN).map(|_| draw.number() as u8).collect()
    })
}

/// What stands at one place.
pub trait Place: Copy {
    const BYTES: usize;

    /// The places that bytes come to.
    fn places(bytes: &[u8]) -> Vec<Self>;
}

impl Place for u8 {
    const BYTES: usize = 1;

    fn places(bytes: &[u8]) -> Vec<u8> {
        bytes.to_vec()
    }
}

impl Place for u64 {
    const BYTES: usize = 8;

    fn places(bytes: &[u8]) -> Vec<u64> {
        let words = bytes.chunks_exact(Self::BYTES);
        let number = |word: &[u8]| u64::from_le_bytes(word.try_into().expect("8 bytes"));
        words.map(number).collect()
    }
}

/// A room and its guards in one piece of memory, filled before the call.
#[derive(Clone, Debug, PartialEq, Eq)]
pub struct Lent<T = u8> {
    places: Vec<T>,
}

impl<T: Place> Lent<T> {
    /// `variety` decides the bytes that it is filled with: a write of a byte that stood there already is
    /// hidden in one book and seen in the next. The room is at most half the pattern.
    pub fn new(room: usize, variety: u64) -> Self {
        let size = (room + 2 * GUARD) * T::BYTES;
        let start = Draw::new(variety).below(PATTERN - size);
        Lent {
            places: T::places(&pattern()[start..start + size]),
        }
    }

    pub fn size(&self) -> usize {
        self.places.len() - 2 * GUARD
    }

    pub fn room(&self) -> &[T] {
        &self.places[GUARD..self.places.len() - GUARD]
    }

    pub fn room_mut(&mut self) -> &mut [T] {
        let end = self.places.len() - GUARD;
        &mut self.places[GUARD..end]
    }

    /// Room and guards.
    pub fn whole_mut(&mut self) -> &mut [T] {
        &mut self.places
    }

    pub fn guards(&self) -> (&[T], &[T]) {
        let end = self.places.len() - GUARD;
        (&self.places[..GUARD], &self.places[end..])
    }
}
