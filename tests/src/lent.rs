//! Slices lent to a call, each in memory of its own, so that what a call does outside of them is seen.

use std::fmt::Debug;
use std::hint::black_box;

/// Numbers in a zone. It is odd, so that bytes between zones stand at no round address.
const ZONE: usize = 67;

/// The memory around a lent slice.
#[derive(Clone, Copy, Debug, PartialEq, Eq)]
pub enum Room {
    /// Zones of marks before and after the slice: a number written there is seen afterwards.
    Zones,
    /// No byte before or after the slice is allocated: under valgrind's memcheck a byte read
    /// or written there is an error.
    Exact,
}

pub const ROOMS: [Room; 2] = [Room::Zones, Room::Exact];

/// A number of a lent slice.
pub trait Number: Copy + Debug + PartialEq {
    /// What stands at a place of a zone: another number at each place, so that neither a
    /// filling nor a copy from beside it leaves the zone as it was.
    fn mark(place: usize) -> Self;
}

macro_rules! numbers {
    ($($number:ty)*) => {$(
        impl Number for $number {
            fn mark(place: usize) -> $number {
                ((place as u64 + 1).wrapping_mul(0x9E37_79B9_7F4A_7C15) >> 32) as $number
            }
        }
    )*};
}

numbers!(u8 i32 i64 u64);

/// A slice in its room.
#[derive(Clone, Debug)]
pub struct Lent<T> {
    /// Allocated to the byte.
    all: Box<[T]>,
    zone: usize,
}

impl<T: Number> Lent<T> {
    pub fn new(contents: &[T], room: Room) -> Lent<T> {
        let zone = match room {
            Room::Zones => ZONE,
            Room::Exact => 0,
        };
        let mut all = Vec::with_capacity(zone + contents.len() + zone);
        all.extend((0..zone).map(T::mark));
        all.extend_from_slice(contents);
        all.extend((0..zone).map(T::mark));
        Lent {
            all: all.into_boxed_slice(),
            zone,
        }
    }

    /// The slice, for a call that only reads it.
    pub fn get(&self) -> &[T] {
        &self.all[self.zone..self.all.len() - self.zone]
    }

    /// The slice, for a call that may write to it.
    pub fn lend(&mut self) -> &mut [T] {
        let end = self.all.len() - self.zone;
        &mut self.all[self.zone..end]
    }

    /// Are the zones as they were?
    fn is_kept(&self) -> bool {
        let after = self.all.len() - self.zone;
        (0..self.zone).all(|place| {
            let mark = T::mark(place);
            self.all[place] == mark && self.all[after + place] == mark
        })
    }

    /// The slice as it is after the call, which must have kept the zones.
    pub fn take_back(mut self) -> Vec<T> {
        // What a call got only to read might be taken for unchanged, so it is looked at anew.
        black_box(&mut self.all);
        assert!(
            self.is_kept(),
            "a number outside the lent slice has changed"
        );
        self.get().to_vec()
    }
}

#[cfg(test)]
mod tests {
    use super::*;

    #[test]
    fn contents_come_back() {
        for room in ROOMS {
            for contents in [&[][..], &[7], &[1, 2, 3]] {
                let mut lent = Lent::<u64>::new(contents, room);
                assert_eq!(lent.get(), contents);
                assert_eq!(lent.lend(), contents);
                lent.lend().fill(9);
                assert_eq!(lent.take_back(), vec![9; contents.len()]);
            }
        }
    }

    #[test]
    fn nothing_is_allocated_beside_an_exact_slice() {
        let lent = Lent::<i32>::new(&[1, 2, 3], Room::Exact);
        assert_eq!(lent.get().as_ptr_range(), lent.all.as_ptr_range());
    }

    fn is_seen<T: Number>(place: usize) -> bool {
        let mut lent = Lent::<T>::new(&[T::mark(500); 3], Room::Zones);
        lent.all[place] = T::mark(501);
        !lent.is_kept()
    }

    #[test]
    fn every_number_of_the_zones_is_looked_at() {
        for place in 0..ZONE + 3 + ZONE {
            let outside = !(ZONE..ZONE + 3).contains(&place);
            assert_eq!(is_seen::<u8>(place), outside);
            assert_eq!(is_seen::<i32>(place), outside);
            assert_eq!(is_seen::<i64>(place), outside);
            assert_eq!(is_seen::<u64>(place), outside);
        }
    }
}
