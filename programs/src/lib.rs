//! What the programs share: reading a text, lines and columns, and showing a place. They decide nothing: the library judges, and these lines print what it
//! said.
#![forbid(unsafe_code)]

pub mod names;
pub mod places;
pub mod reading;
pub mod refusals;
pub mod shown;
pub mod words;
