//! Every record and page of document 01, "Records and pages", as a plain value and as bytes.
//!
//! Each kind has `encode`, which writes a value, and `decode`, which gives the value back, or
//! nothing where the bytes don't follow the layout. After reading the fields, `decode` asks that
//! `encode` gives the very same bytes. So a wrong length, filler that isn't zero, an absent record
//! that isn't 0, an unknown bit and a field not in use all fail in one place, and bytes that
//! decode are determined by their plain values.

pub mod answer;
pub mod desk;
pub mod little_endian;
pub mod pages;
pub mod request;
