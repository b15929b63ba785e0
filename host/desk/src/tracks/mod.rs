//! Tracks: what a program sends for its sources, and whether what a desk sent is the same.

pub mod extent;
pub mod findings;
pub mod fit;
pub mod heard;
pub mod inputs;
pub mod list;
pub mod mixer;
pub mod played;
pub mod prepared;
pub mod replayed;
#[cfg(test)]
pub(crate) mod samples;
pub mod sitting;
pub mod stops;
pub mod stretch;
pub mod strip;
pub mod time;
pub mod verdict;
