//! The plain fast implementation against the mesher: two separately written ones, without the library.
//! Its local check for number 11 meets the mesher's rebuild-and-compare here.

differential::suite!(differential::caller::Plain);
