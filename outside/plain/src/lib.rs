//! The documents' calls as a Rust programmer would write them for speed: the flat table of 12-byte slots, a constant table of stars,
//! sort_unstable, one pass for number 11. What the library's speed is measured against, and a third opinion in the tests.
//!
//! `lattice` points and stars; `table` slots; `mesh` base, subdivision, queries; `files` writers, readers; `grown` the local check;
//! `bring` a vertex brought to degree 6; `outlines` passes round an outline; `counts` a table's numbers, the census; `findings` the list joined with
//! the plan; `salvage` old files; `viewer` OFF and OBJ files; `engine` a record without any table.

pub mod bring;
pub mod counts;
pub mod engine;
pub mod files;
pub mod findings;
pub mod grown;
pub mod lattice;
pub mod mesh;
pub mod outlines;
pub mod salvage;
pub mod table;
pub mod viewer;

pub use bring::bring_to_six;
pub use counts::{census, counts};
pub use engine::{vertex, vertices};
pub use files::{read_full, read_reduced, write_full, write_reduced};
pub use findings::findings;
pub use lattice::{normalise, star};
pub use mesh::{base, faces, faces_all, neighbours, neighbours_all, subdivide, subdivide_all};
pub use outlines::{refine_disc, refine_line};
pub use salvage::salvage;
pub use viewer::{write_obj, write_off};

/// A count and six points as a, b, m.
pub type Points = [i32; 19];
/// V, E, F, and the vertices of degree 0, 3, 4, 5, 6.
pub type Numbers = [u32; 8];
