//! The section headers and the address ranges of an ELF file of 64 bits whose numbers begin with their least byte.

mod digits;
pub mod fault;
pub mod finding;
pub mod header;
pub mod lines;
pub mod names;
pub mod numbers;
pub mod overlaps;
pub mod ranges;
pub mod reading;
pub mod report;
pub mod section;
pub mod sections;
pub mod set;
pub mod sets;
pub mod tables;
