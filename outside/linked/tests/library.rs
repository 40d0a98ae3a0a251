//! The library through its Rust wrapper against the mesher: the whole suite. It links the archive, so it needs an x86-64 machine.

differential::suite!(linked::Library);
