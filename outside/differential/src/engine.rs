//! The tests of the second engine, for any caller against the mesher, which steps: every number in its order by cases written out; every one number of
//! a list changed; and against the caller's own tables, every vertex of each. The stream of `random` has it too.

use crate::caller::Caller;
use crate::case::Case;
use crate::makers::*;
use crate::rng::Rng;
use crate::suite::{same, seed};
use mesher::slots::{decode, SLOT};

const THREE: [i32; 6] = [0, 0, 1, 1, 2, -1];

/// The number at a point, the same from both.
fn number(caller: &dyn Caller, centres: &[i32], pairs: &[i32], [a, b, m]: [i32; 3]) -> u8 {
    same(caller, &Case::Vertex { centres: centres.to_vec(), pairs: pairs.to_vec(), point: ([a, b], m as u8) })
}

/// "Refusals: 2; 21 ..; 3 for an absent vertex": in this order, whole lists first.
pub fn vertex_refusals_in_order(caller: &dyn Caller) {
    let once = [1, 0, 0, 0];
    let twice = [1, 0, 0, 0, 3, 0, 1, 1];
    for (centres, pairs, point, wanted) in [
        (&[][..], &[1, 0, 0, 1][..], [5, 5, 0], 2),
        (&THREE[..5], &once, [1, 0, 0], 2),
        (&[0, 0, 0, 0], &once, [1, 0, 0], 2),
        (&THREE, &[1, 0, 0, 1], [5, 5, 0], 21),
        (&THREE, &[1, 0, 0, 1, 1, 0, 0, 0], [1, 0, 0], 21),
        (&THREE, &[1, 0, 0, 0, 1, 0, 0, 0], [1, 0, 0], 21),
        (&THREE, &once[..3], [1, 0, 0], 21),
        (&THREE, &[1, 0, 0, 0, 9], [1, 0, 0], 21),
        (&THREE, &[1, 0, -1, 0], [1, 0, 0], 21),
        (&THREE, &[1, 0, 256, 0], [1, 0, 0], 21),
        (&THREE, &[1, 0, 0, -1], [1, 0, 0], 21),
        (&THREE, &[1, 0, 0, 256], [1, 0, 0], 21),
        (&THREE, &[0, 0, 0, 0], [1, 0, 0], 21),
        (&THREE, &[2, 0, 0, 0], [1, 0, 0], 21),
        (&THREE, &once, [5, 5, 0], 3),
        (&THREE, &once, [4, 0, 1], 3),
        (&THREE, &[], [i32::MIN, i32::MAX, 255], 3),
        (&THREE, &twice, [4, 0, 1], 0),
        (&THREE, &[], [2, 0, 0], 0),
    ] {
        assert_eq!(number(caller, centres, pairs, point), wanted, "{centres:?} {pairs:?} {point:?}");
    }
    // as often as there are levels, and once more
    let all: Vec<i32> = (0..12).flat_map(|n| [1, 0, 0, n]).collect();
    assert_eq!(number(caller, &THREE, &all, [1, 0, 0]), 0);
    assert_eq!(number(caller, &THREE, &[&all[..], &[1, 0, 0, 12]].concat(), [1, 0, 0]), 21);
}

/// Good lists with each of their numbers a little different.
pub fn vertex_every_edit(caller: &dyn Caller) {
    let mut rng = Rng::new(seed() ^ 0xe1);
    for _ in 0..40 {
        let list = listed(&mut rng, 12, 8);
        for at in 0..list.pairs.len() {
            for by in [1, -1, 3, 12, 256, i32::MIN] {
                let mut pairs = list.pairs.clone();
                pairs[at] = pairs[at].wrapping_add(by);
                let point = request(&mut rng, &list.records, false);
                same(caller, &Case::Vertex { centres: list.centres.clone(), pairs, point });
            }
        }
    }
}

/// What the caller's own calls on a table leave, vertex by vertex, is what it answers without one; and so where they stop, damaged or not.
pub fn vertices_are_the_tables(caller: &dyn Caller) {
    let mut rng = Rng::new(seed() ^ 0xe2);
    for round in 0..150 {
        let mut list = listed(&mut rng, 120, 60);
        if round % 3 == 0 {
            damaged_list(&mut rng, &mut list);
        }
        let mut table = vec![255; SLOT * (list.records.len() + 40).max(16)];
        assert_eq!(caller.base(&mut table, &list.centres), (0, 0));
        let stands = |table: &[u8], p: [i32; 3]| table.chunks(SLOT).find(|s| **s != [255; SLOT] && at(s) == p).map(decode);
        let fits = list.pairs.len() % 4 == 0
            && list.pairs.chunks(4).all(|pair| {
                let Ok(m) = u8::try_from(pair[2]) else { return false };
                let (_, p) = caller.normalise(pair[0], pair[1], m);
                stands(&table, p).is_some_and(|v| v.n as i32 == pair[3]) && caller.subdivide(&mut table, pair[0], pair[1], m) == 0
            });
        let there: Vec<&[u8]> = table.chunks(SLOT).filter(|s| **s != [255; SLOT]).collect();
        let points: Vec<i32> = there.iter().flat_map(|s| at(s)).chain([5_000, 5_000, 0]).collect();
        let mut rows = vec![7; 6 * (there.len() + 1)];
        assert_eq!(caller.vertices(&list.centres, &list.pairs, &points, &mut rows), if fits { 0 } else { 21 });
        if fits {
            for (slot, row) in there.iter().zip(rows.chunks(6)) {
                let [a, b, m] = at(slot);
                assert_eq!(row, [a, b, m, slot[9] as i32, slot[10] as i32, slot[11] as i32]);
            }
            assert_eq!(rows[6 * there.len()..], [0; 6]);
        }
    }
}

/// The point of a slot.
fn at(slot: &[u8]) -> [i32; 3] {
    let r = decode(slot);
    [r.a, r.b, r.m as i32]
}
