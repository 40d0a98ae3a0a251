//! What cases are made of: `meshes` grown, `torn` and `nearly` grown; `tables` laid and damaged; `files`, `old` ones; lists of `findings`; `outlines`;
//! `lists` of subdivisions; `requests` and base lists.

mod files;
mod findings;
mod lists;
mod meshes;
mod nearly;
mod old;
mod outlines;
mod requests;
mod tables;
mod torn;

pub use files::*;
pub use findings::*;
pub use lists::*;
pub use meshes::*;
pub use nearly::*;
pub use old::*;
pub use outlines::*;
pub use requests::*;
pub use tables::*;
pub use torn::*;
