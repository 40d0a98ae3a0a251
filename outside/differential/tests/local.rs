//! Number 11 decided in two ways: the plain one's local check against the mesher's building anew, on meshes that are nearly grown.

use differential::makers::*;
use differential::rng::Rng;
use differential::suite::seed;
use mesher::mesh::Mesh;

const MESHES: usize = 60_000;

#[test]
fn the_local_check_is_building_anew() {
    let mut rng = Rng::new(seed() ^ 0x77);
    let mut verdicts = [0; 2];
    for _ in 0..MESHES / 20 {
        let most = *rng.pick(&[7, 16, 30, 60, 120]);
        let mesh = grown(&mut rng, most);
        for _ in 0..20 {
            let list = nearly_grown(&mut rng, &mesh);
            let table = laid(&mut rng, &list, (list.len() + 8).max(16));
            let anew = Mesh::of(&list).is_grown();
            assert_eq!(plain::grown::is_grown(&table), anew, "{list:?}");
            verdicts[anew as usize] += 1;
        }
    }
    println!("not grown, grown: {verdicts:?}");
    assert!(verdicts.iter().all(|times| *times > MESHES / 20));
}
