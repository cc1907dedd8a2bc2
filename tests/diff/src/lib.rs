//! Results of etherparse 0.19.0 for lines of the tool, for single headers and for reads; results of filters by a plain
//! program; the cases; and the comparisons.
pub mod bad_lines;
pub mod before;
pub mod chains;
pub mod changes;
pub mod compare;
pub mod dissections;
pub mod faults;
pub mod fields;
pub mod filters;
pub mod forms;
pub mod fragment_bits;
pub mod headers;
pub mod named;
pub mod ours;
pub mod packets;
pub mod random;
pub mod reads;
