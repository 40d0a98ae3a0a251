//! The subcommands, in the order of the work.

mod compare;
mod convert;
mod count;
mod example;
mod findings;
mod lattice;
mod lay;
mod queries;
mod refine;
mod replay;
mod round;
mod salvage;
mod subdivide;
mod viewer;

use crate::draw;
use crate::words::Command;

pub const ALL: &[&Command] = &[
    &lay::COMMAND,
    &subdivide::COMMAND,
    &refine::COMMAND,
    &replay::COMMAND,
    &queries::NEIGHBOURS,
    &queries::FACES,
    &lattice::NORMALISE,
    &lattice::STAR,
    &convert::REDUCE,
    &convert::RESTORE,
    &salvage::COMMAND,
    &count::CENSUS,
    &count::CHECK,
    &compare::COMMAND,
    &findings::COMMAND,
    &draw::COMMAND,
    &viewer::OFF,
    &viewer::OBJ,
    &example::COMMAND,
];
