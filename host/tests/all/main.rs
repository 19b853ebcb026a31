//! The library against a plain implementation of the documents, and the command, the example and C against the library.
//!
//! Every test says how many cases it went through; all inputs come from fixed seeds.

mod c_programs;
mod cipher;
mod command;
mod desk;
mod images;
mod lists;
mod points;
mod random;
mod recipes;
mod reference;
mod reference_itself;
mod stack;
mod texts;
mod vectors;
mod wrapper;
