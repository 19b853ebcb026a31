//! Katsunebyo for Rust hosts: safe functions over the entries of `libkatsunebyo.a`.
//!
//! - [`cipher`]: the Kalyna cipher (DSTU 7624) on one cell, in five sizes, as block, CTR, OFB, CFB, CBC and CMAC;
//! - [`Image::prepare`]: a recipe's text, read and folded once;
//! - [`Image::run`]: an image run on a [`List`] of values, once a row.
//!
//! Every function takes any bytes and returns: the answer, or a [`Refused`] with the [`Number`] that says why, the
//! output as it was. Keys belong to the host: the library keeps none.

pub mod cipher;
pub mod hex;
mod list;
mod numbers;
pub mod raw;
mod recipe;

pub use list::{List, ListError, Name};
pub use numbers::{Answer, Number, Refused};
pub use recipe::{prepare_answer, run_answer, Image, Work, LARGEST_IMAGE, WORK_ROOM};
