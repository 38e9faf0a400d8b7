//! The powers of cm + 2 that a build works out once, and the codes made and taken apart with them, under all
//! sizes with N at most 65,536.

mod common;

use common::{record, refusal, Room};
use reference::Codes;

const MOST_CODES: u32 = 65_536;

/// L, K and cm.
#[derive(Clone, Copy, Debug, PartialEq)]
struct Size {
    locations: u32,
    clocks: u32,
    largest: u32,
}

impl Size {
    fn new(locations: u32, clocks: u32, largest: u32) -> Self {
        Size { locations, clocks, largest }
    }

    /// How many values a base has: 0 to cm, and "above cm".
    fn radix(self) -> u32 {
        self.largest + 2
    }

    /// A power of cm + 2, one factor after the other.
    fn power(self, exponent: usize) -> u32 {
        let mut product = 1;
        for _ in 0..exponent {
            product *= self.radix();
        }
        product
    }

    /// N.
    fn code_count(self) -> u32 {
        self.locations * self.power(self.clocks as usize)
    }

    fn codes(self) -> Codes {
        Codes::new(self.clocks, self.largest)
    }

    /// A rule of this size: every location is initial, and one edge leads from the first to the last when the
    /// last clock is at cm, with a reset of clock 0.
    fn file(self) -> Vec<u8> {
        let [locations, clocks, largest] =
            [self.locations, self.clocks, self.largest].map(|size| size as u16);
        let mut file = record(1, &[locations, 1, clocks]);
        file.extend((0..locations).flat_map(|location| record(2, &[location])));
        file.extend(record(5, &[0, locations - 1, 0, 1, clocks - 1, 2, largest]));
        file
    }
}

/// Every L, K and cm in its range.
fn in_range() -> impl Iterator<Item = Size> {
    let of_clocks = |locations, clocks| (0..=30).map(move |largest| Size::new(locations, clocks, largest));
    (1..=32).flat_map(move |locations| (1..=4).flat_map(move |clocks| of_clocks(locations, clocks)))
}

/// Every size with N at most 65,536.
fn sizes() -> impl Iterator<Item = Size> {
    in_range().filter(|size| size.code_count() <= MOST_CODES)
}

/// A pair that counts up through all pairs of a size: clock 0 turns fastest, the location slowest.
#[derive(Debug, PartialEq)]
struct Odometer {
    location: u32,
    bases: Vec<u32>,
}

impl Odometer {
    /// This location with bases 0.
    fn at(location: u32, size: Size) -> Self {
        Odometer { location, bases: vec![0; size.clocks as usize] }
    }

    /// The clocks with their bases.
    fn bases(&self) -> impl Iterator<Item = (usize, u32)> + '_ {
        self.bases.iter().copied().enumerate()
    }

    /// Goes on to the next pair, without a division.
    fn turn(&mut self, radix: u32) {
        for base in &mut self.bases {
            *base += 1;
            if *base < radix {
                return;
            }
            *base = 0;
        }
        self.location += 1;
    }
}

#[test]
fn there_are_2_736_sizes_and_19_142_669_codes() {
    assert_eq!(in_range().count(), 3_968);
    assert_eq!(sizes().count(), 2_736);
    assert_eq!(sizes().map(Size::code_count).sum::<u32>(), 19_142_669);
}

#[test]
fn the_sizes_reach_65_536_and_end_there() {
    let full: Vec<Size> = sizes().filter(|size| size.code_count() == MOST_CODES).collect();
    assert_eq!(full, [(1, 4, 14), (2, 3, 30), (16, 3, 14), (16, 4, 6)].map(|(l, k, cm)| Size::new(l, k, cm)));
    for (size, code_count) in [
        (Size::new(10, 4, 7), 65_610),
        (Size::new(17, 3, 14), 69_632),
        (Size::new(17, 4, 6), 69_632),
        (Size::new(16, 3, 15), 78_608),
        (Size::new(1, 4, 15), 83_521),
        (Size::new(3, 3, 30), 98_304),
        (Size::new(2, 4, 14), 131_072),
    ] {
        assert_eq!(size.code_count(), code_count);
        assert!(in_range().any(|other| other == size), "{size:?}");
        assert!(!sizes().any(|other| other == size), "{size:?}");
    }
    assert!(in_range().filter(|size| size.code_count() > MOST_CODES).all(|size| size.code_count() >= 65_610));
}

#[test]
fn the_sizes_are_those_that_the_reader_accepts() {
    let mut room = Room::new(0, 0, 0, 0, 5);
    for size in in_range() {
        let file = size.file();
        let outcome = room.read(&file).map(|head| (head.locations, head.clocks));
        if size.code_count() <= MOST_CODES {
            assert_eq!(outcome, Ok((size.locations, size.clocks)), "{size:?}");
        } else {
            assert_eq!(outcome, refusal(8, file.len()), "{size:?}");
        }
    }
}

#[test]
fn powers_0_to_k_are_products_and_the_places_past_them_zero() {
    for size in sizes() {
        for (place, power) in size.codes().powers().into_iter().enumerate() {
            let expected = if place <= size.clocks as usize { size.power(place) } else { 0 };
            assert_eq!(power, expected, "{size:?}, power {place}");
        }
    }
}

#[test]
fn every_code_taken_apart_and_made_again_is_the_same() {
    for size in sizes() {
        let codes = size.codes();
        for code in 0..size.code_count() {
            let (location, bases) = codes.pair(code);
            let bases: Vec<(usize, u32)> = bases.collect();
            assert!(location < size.locations, "{size:?}, code {code}");
            assert!(bases.iter().map(|base| base.0).eq(0..size.clocks as usize), "{size:?}, code {code}");
            assert!(bases.iter().all(|base| base.1 < size.radix()), "{size:?}, code {code}");
            assert_eq!(codes.code(location, bases.into_iter()), code, "{size:?}");
        }
    }
}

#[test]
fn every_pair_in_order_has_the_next_code_and_comes_back() {
    for size in sizes() {
        let codes = size.codes();
        let mut pair = Odometer::at(0, size);
        for code in 0..size.code_count() {
            assert_eq!(codes.code(pair.location, pair.bases()), code, "{size:?}, {pair:?}");
            let (location, bases) = codes.pair(code);
            assert_eq!(location, pair.location, "{size:?}, code {code}");
            assert!(bases.eq(pair.bases()), "{size:?}, code {code}");
            pair.turn(size.radix());
        }
        assert_eq!(pair, Odometer::at(size.locations, size), "{size:?}: not all pairs");
    }
}

/// The codes of a row.
fn row_codes(room: &Room, row: u32) -> &[u32] {
    let numbers = &room.rows[3 * row as usize..];
    &room.pool[numbers[0] as usize..][..numbers[1] as usize]
}

#[test]
fn a_build_takes_a_bit_of_scratch_per_code_and_makes_these_codes() {
    for size in sizes() {
        let scratch = size.code_count().div_ceil(32) as usize;
        let mut room = Room::new(scratch - 1, 200, 9, 40, 5);
        let head = room.read(&size.file()).unwrap();
        assert_eq!(room.build(&head), refusal(22, 0), "{size:?}");
        room.scratch.push(5);
        assert!(room.build(&head).is_ok(), "{size:?}");
        let bases_0 = |location: u32| location * size.power(size.clocks as usize);
        let start: Vec<u32> = (0..size.locations).map(bases_0).collect();
        assert_eq!(row_codes(&room, 0), start, "{size:?}");
        // At [cm] the timer is reset: the edge's target has clock 0 at base 0 and every other at base cm.
        let bases_cm: u32 = (1..size.clocks as usize).map(|clock| size.largest * size.power(clock)).sum();
        let cell = room.cells[2 * size.largest as usize];
        assert_eq!(cell % 2, 1, "{size:?}");
        assert_eq!(row_codes(&room, cell / 2), [bases_0(size.locations - 1) + bases_cm], "{size:?}");
    }
}
