//! A mesher written from documents 000, 01 and 02 alone, to be compared with the library.
//!
//! Its means are other than a table's: places are complex numbers at one common depth (`spot`), stars are drawn from angles and
//! lengths (`star`), a mesh is a map from places to records (`mesh`), a mesh is grown when building it anew gives it back
//! (`mesh::grown`), files are sorted tuples (`lines`), findings are kept at their vertices in a map (`findings`), what a vertex waits for is a
//! list of jobs (`bring`), the sides of an outline are kept in a map (`outlines`), a list of subdivisions is made one after the other (`replay`), a
//! viewer's vertices are numbered in a map (`viewer`), what is left of an old file stands in a map (`salvage`), and the slots are a list that is
//! walked (`slots`). `calls` has the documents' calls with every lent byte; each answer also says, in words, why it is what it is. `slips` are deliberate
//! mistakes, off unless a test asks for one.

pub mod bring;
pub mod calls;
pub mod findings;
pub mod lines;
pub mod mesh;
pub mod outlines;
pub mod record;
pub mod replay;
pub mod salvage;
pub mod slips;
pub mod slots;
pub mod spot;
pub mod star;
pub mod viewer;

pub use calls::*;
pub use record::Record;
pub use spot::Point;
