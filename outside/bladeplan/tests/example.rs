//! `example` against the files that ship in examples/: inputs, results and drawings, byte for byte.

mod common;

use common::{names, Desk};
use std::fs;
use std::path::Path;

#[test]
fn the_example_is_the_stored_one() {
    let desk = Desk::new("example");
    let ran = desk.run("example blade");
    assert_eq!(ran.status, 0, "{}", ran.err);
    let (stored, made) = (Path::new(env!("CARGO_MANIFEST_DIR")).join("../../examples"), desk.place.join("blade"));
    assert_eq!(names(&stored), names(&made));
    for name in names(&stored) {
        let (old, new) = (fs::read(stored.join(&name)).expect("stored"), fs::read(made.join(&name)).expect("made"));
        assert!(
            old == new,
            "examples/{name} is not what 'bladeplan example' makes; where the change is meant, './bladeplan example examples' stores it"
        );
    }
    let counted = "bladeplan: lay: 32 hexagons in, 120 vertices out\nbladeplan: subdivide: 120 vertices in, 186 vertices out\n";
    assert!(ran.err.starts_with(counted), "{}", ran.err);
    assert!(ran.out.contains(&format!("The results are in {}", fs::canonicalize(&made).expect("made").display())), "{}", ran.out);
}

#[test]
fn it_may_be_run_again_and_be_quiet() {
    let desk = Desk::new("again");
    for _ in 0..2 {
        let ran = desk.run("example --quiet");
        assert_eq!((ran.status, ran.err.as_str()), (0, ""));
    }
    assert_eq!(desk.files(), ["bladeplan-example"]);
    desk.put("taken", "a file\n");
    assert_eq!(desk.run("example taken").status, 74);
}
