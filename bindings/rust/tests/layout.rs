//! The records' sizes and places, as the C header has them.

use alderskein::raw::*;
use std::mem::{offset_of, size_of};

#[test]
fn sizes() {
    assert_eq!(
        [size_of::<Stamp>(), size_of::<Head>(), size_of::<Built>(), size_of::<Follower>()],
        [4, 24, 28, 20]
    );
    assert_eq!([size_of::<Answer>(), size_of::<BranchAnswer>(), size_of::<Moved>()], [24, 32, 24]);
    assert_eq!([size_of::<Reading>(), size_of::<Building>()], [40, 48]);
    assert_eq!([size_of::<Started>(), size_of::<Followed>()], [40, 40]);
    assert_eq!([size_of::<Size>(), size_of::<Listed>(), size_of::<Next>()], [12, 40, 64]);
    assert_eq!(size_of::<Inclusion>(), 32);
    assert_eq!([size_of::<Batch>(), size_of::<Shares>()], [452, 2072]);
}

#[test]
fn places() {
    assert_eq!([offset_of!(Head, ends), offset_of!(Head, count)], [16, 20]);
    assert_eq!([offset_of!(Answer, place), offset_of!(Answer, value)], [8, 16]);
    assert_eq!([offset_of!(Reading, head), offset_of!(Building, built)], [16, 16]);
    assert_eq!([offset_of!(BranchAnswer, found), offset_of!(BranchAnswer, start)], [16, 18]);
    assert_eq!([offset_of!(BranchAnswer, held), offset_of!(BranchAnswer, position)], [20, 24]);
    assert_eq!([offset_of!(Started, follower), offset_of!(Followed, follower)], [16, 20]);
    assert_eq!([offset_of!(Followed, yes), offset_of!(Moved, yes)], [16, 16]);
    assert_eq!([offset_of!(Follower, reset), offset_of!(Follower, count)], [8, 16]);
    assert_eq!([offset_of!(Size, symbols), offset_of!(Size, events), offset_of!(Size, seconds)], [0, 4, 8]);
    let listed = [offset_of!(Listed, count), offset_of!(Listed, symbols), offset_of!(Listed, stamps)];
    assert_eq!(listed, [0, 4, 16]);
    assert_eq!([offset_of!(Next, number), offset_of!(Next, place)], [0, 8]);
    assert_eq!([offset_of!(Next, last), offset_of!(Next, word)], [16, 20]);
    assert_eq!([offset_of!(Inclusion, number), offset_of!(Inclusion, place)], [0, 8]);
    assert_eq!([offset_of!(Inclusion, included), offset_of!(Inclusion, events)], [16, 24]);
    assert_eq!([offset_of!(Batch, count), offset_of!(Batch, tables)], [0, 4]);
    assert_eq!([offset_of!(Shares, number), offset_of!(Shares, place)], [0, 8]);
    assert_eq!([offset_of!(Shares, greatest), offset_of!(Shares, lines)], [16, 20]);
}
