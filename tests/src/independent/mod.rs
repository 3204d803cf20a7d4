//! A second judge of jobs, written from the textbook, from document 01 and from request E1 of document 02
//! alone, to be compared with the station's entries. It shares no code and no idea with it: terms are trees,
//! the unifier is Robinson's, and what document 01 defines on nodes is computed by the plainest means there
//! are.

pub mod compare;
pub mod damage;
pub mod faults;
pub mod filed;
pub mod graph;
pub mod host;
pub mod jobfile;
pub mod jobs;
pub mod judge;
pub mod listed;
pub mod lists;
pub mod partition;
pub mod replacement;
pub mod robinson;
pub mod seen;
pub mod tables;
pub mod terms;
pub mod unnamed;
pub mod wanted;

/// The most symbols that the terms of a job may have, unfolded and resolved. Shared subterms make terms
/// of a few words as large as one likes, so a job beyond it is judged by its partition alone.
pub const MOST_SYMBOLS: usize = 10_000;
