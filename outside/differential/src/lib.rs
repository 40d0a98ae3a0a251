//! Differential tests: the same cases put to two implementations, every answer and every lent byte compared.
//!
//! `caller` the calls as a trait, the mesher and the plain one as callers; `case` a call with its inputs, and what comes of it;
//! `makers` tables, files, lists and requests, good, torn and damaged; `random` the stream of cases; `coverage` which refusals were
//! reached; `suite` the tests, for any caller, with `edges` those of E, `findings` those of findings, `bring` those of a vertex brought to
//! degree 6, `outlines` those of passes round an outline, `salvage` those of old files, `engine` those of the second engine and `viewer` those of OFF and
//! OBJ files, which `drawing` reads back. `rng` is the only source of chance: a seed gives the same cases everywhere.

pub mod bring;
pub mod caller;
pub mod case;
pub mod coverage;
pub mod drawing;
pub mod edges;
pub mod engine;
pub mod findings;
pub mod makers;
pub mod outlines;
pub mod random;
pub mod rng;
pub mod salvage;
pub mod suite;
pub mod viewer;
