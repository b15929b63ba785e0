//! The report of a sitting for the coordinator of interpreters: one page of HTML that tells at a glance which track is wrong and since
//! when, and below that what engineers need.

mod axis;
mod bands;
mod engineers;
mod escape;
mod facts;
mod footer;
mod heading;
mod page;
mod section;
mod sentence;
mod sources;
mod strip;
mod svg;
mod table;
#[cfg(test)]
mod tags;
mod times;

pub use page::page;
