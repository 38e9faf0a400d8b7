//! The build scratch: one bit for each code, 32 to a number; 22 where it is shorter.

mod common;

use alderskein::{decide, raw, Room, Rule, Table, BUILD_SCRATCH};
use common::{record, refused, word};

/// L, K, cm, and the numbers of scratch that N = L * (cm + 2)^K codes take: N is 31, 32, 33, 64, 65, 65,536.
const SIZES: [(u16, u16, u16, usize); 6] =
    [(1, 1, 29, 1), (1, 1, 30, 1), (11, 1, 1, 2), (2, 1, 30, 2), (13, 1, 3, 3), (16, 3, 14, 2_048)];

/// The edges lead from each location to the next at x = 1 with x reset, and stay, by one edge always and by another
/// while x is at most cm.
fn file(locations: u16, clocks: u16, top: u16) -> Vec<u8> {
    let front = [record(1, &[locations, 1, clocks]), record(2, &[0]), record(3, &[locations - 1])].concat();
    let edges = (0..locations).flat_map(|location| {
        let next = record(5, &[location, (location + 1) % locations, 0, 1, 0, 2, 1]);
        let stays =
            [record(5, &[location, location, 0, 0]), record(5, &[location, location, 0, 0, 0, 1, top])];
        [next, stays.concat()].concat()
    });
    [front, edges.collect()].concat()
}

fn code_count(table: &Table) -> u32 {
    let built = table.built();
    built.locations * (built.top + 2).pow(built.clocks)
}

/// The room that this table needs, number for number, with a scratch of this length.
fn exact(table: &Table, scratch: usize) -> Room {
    let [cells, rows, pool] = table.parts().map(<[u32]>::len);
    Room { scratch, cells, rows, pool }
}

#[test]
fn a_number_holds_32_codes() {
    let two = word(1, &[(0, 1), (0, 2)]);
    for (locations, clocks, top, numbers) in SIZES {
        let file = file(locations, clocks, top);
        let rule = Rule::read(&file).unwrap();
        let table = rule.build(Room::default()).unwrap();
        let count = code_count(&table);
        assert_eq!(numbers, count.div_ceil(32) as usize);
        assert!(table.parts()[2].contains(&(count - 1)), "N = {count}: the highest code comes up");
        assert_eq!(rule.build(exact(&table, numbers - 1)), refused(22, 0), "N = {count}");
        assert_eq!(decide(&file, exact(&table, numbers - 1), &two), refused(22, 0), "N = {count}");
        for scratch in [numbers, numbers + 1, 2 * BUILD_SCRATCH] {
            let room = exact(&table, scratch);
            assert_eq!(rule.build(room).as_ref(), Ok(&table), "N = {count} in {scratch} numbers");
            assert_eq!(decide(&file, room, &two), table.run(&two), "N = {count} in {scratch} numbers");
        }
    }
}

#[test]
fn the_largest_rule_needs_all_of_it() {
    let (locations, clocks, top, numbers) = SIZES[5];
    let table = Rule::read(&file(locations, clocks, top)).unwrap().build(Room::default()).unwrap();
    assert_eq!((code_count(&table), numbers), (65_536, BUILD_SCRATCH));
    assert_eq!(Room::default().scratch, BUILD_SCRATCH);
}

/// The refusal of a build in this room, every bit of it 1, and whether the scratch was left so; if not, it is all zero.
fn build_over_ones(rule: &Rule, room: Room) -> (u8, bool) {
    let lengths = [room.scratch, room.cells, room.rows, room.pool];
    let [mut scratch, mut cells, mut rows, mut pool] = lengths.map(|length| vec![u32::MAX; length]);
    let building =
        raw::build_table(rule.head(), rule.edges(), &mut scratch, &mut cells, &mut rows, &mut pool);
    let left = scratch.contains(&u32::MAX);
    assert_eq!(scratch, vec![if left { u32::MAX } else { 0 }; room.scratch]);
    (building.number, left)
}

#[test]
fn what_the_scratch_holds_does_not_count() {
    for (locations, clocks, top, numbers) in SIZES {
        let rule = Rule::read(&file(locations, clocks, top)).unwrap();
        let fits = exact(&rule.build(Room::default()).unwrap(), numbers);
        let short = Room { scratch: numbers - 1, ..fits };
        assert_eq!(build_over_ones(&rule, fits), (0, false));
        assert_eq!(build_over_ones(&rule, Room { scratch: numbers + 9, ..fits }), (0, false));
        assert_eq!(build_over_ones(&rule, Room { rows: fits.rows - 1, ..fits }), (23, false));
        assert_eq!(build_over_ones(&rule, Room { pool: fits.pool - 1, ..fits }), (24, false));
        assert_eq!(build_over_ones(&rule, short), (22, numbers > 1), "22 leaves what there is");
    }
}
