//! Document 02, ticket 13, by stepping: the base is laid and each pair subdivided in its turn, in a mesh that has room for all; then the vertex is
//! looked up.

use crate::mesh::{bad_centre, base, Mesh, Refused};
use crate::record::{in_reach, Record, HIGHEST};
use crate::slips::{made, Slip};
use crate::spot::Point;

/// The numbers of a pair: its point, and the level at which it was subdivided.
const PAIR: usize = 4;

/// The mesh that a base and a list of pairs leave.
pub fn replayed(centres: &[i32], pairs: &[i32]) -> Result<Mesh, Refused> {
    if made(Slip::ListBeforeBase) && pairs.len() % PAIR != 0 {
        return Err(Refused(21, "numbers past the last pair"));
    }
    if centres.is_empty() || centres.len() % 2 == 1 {
        return Err(Refused(2, "list empty or of odd length"));
    }
    let hexagons: Vec<(i32, i32)> = centres.chunks(2).map(|c| (c[0], c[1])).collect();
    if let Some((_, why)) = bad_centre(&hexagons) {
        return Err(Refused(2, why));
    }
    if pairs.len() % PAIR != 0 && !made(Slip::OddPairsRead) {
        return Err(Refused(21, "numbers past the last pair"));
    }
    let mut mesh = Mesh::of(&base(&hexagons));
    for pair in pairs.chunks_exact(PAIR) {
        let v = due(&mesh, pair)?;
        let subdivision = mesh.subdivision(&v).expect("a grown mesh is not torn");
        mesh.make(&subdivision);
    }
    Ok(mesh)
}

/// The vertex of a pair whose turn has come: of degree 6, at the pair's level.
fn due(mesh: &Mesh, pair: &[i32]) -> Result<Record, Refused> {
    let m = match u8::try_from(pair[2]) {
        Ok(m) => m,
        Err(_) if made(Slip::DepthWrapped) => pair[2] as u8,
        Err(_) => return Err(Refused(21, "a pair of no such depth")),
    };
    let spelled = Point::new(pair[0], pair[1], m);
    let v = standing(mesh, if made(Slip::PairAsSpelled) { spelled } else { spelled.normalised() })
        .map_err(|Refused(_, why)| Refused(21, why))?;
    let level = v.n as i32;
    match pair[3] {
        _ if v.d != 6 => Err(Refused(21, if v.d == 0 { "a pair on the rim" } else { "a pair below degree 6" })),
        _ if v.n == HIGHEST => Err(Refused(21, "a pair at level 12")),
        z if z < level && !made(Slip::LevelUnasked) => Err(Refused(21, "a pair below its level")),
        z if z > level && !made(Slip::LevelUnasked) => Err(Refused(21, "a pair above its level")),
        _ => Ok(v),
    }
}

/// The vertex at a point.
pub fn standing(mesh: &Mesh, p: Point) -> Result<Record, Refused> {
    if !in_reach(p) {
        return Err(Refused(3, "a point that no record can have"));
    }
    mesh.at(p).filter(|r| r.point() == p).copied().ok_or(Refused(3, "no vertex at the point"))
}
