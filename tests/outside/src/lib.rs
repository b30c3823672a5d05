//! An implementation of document 01 with requests E1 to E4 and E6 to E13 of document 02, written from the
//! documents alone, a generator of images, and the means to compare both with the proved library.

pub mod answer;
#[cfg(feature = "library")]
pub mod bench;
pub mod compare;
pub mod designs;
pub mod examples;
pub mod generate;
#[cfg(feature = "library")]
pub mod library;
pub mod reference;
pub mod stored;
pub mod table;
pub mod trace;

#[cfg(test)]
mod cases;
