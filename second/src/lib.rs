//! A second implementation of NCC-Sign, trinomial level 1.
//!
//! It is written from two papers alone: the scope paper, called 01 in the
//! comments, and source document 002. FIPS 202 gives SHAKE256. It serves as an
//! oracle for another program, so it favours plain code over clever code.

#![forbid(unsafe_code)]

pub mod cases;
pub mod packing;
pub mod refusal;
pub mod replay;
pub mod ring;
pub mod rounding;
pub mod sampling;
pub mod scheme;
pub mod set;
pub mod shake;
pub mod vectors;
