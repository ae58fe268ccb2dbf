//! What the benchmarks share: the library's entries, and both jobs in the usual Rust way.
pub mod gates;
pub mod jobs;
pub mod library;
pub mod members;
pub mod sets;
pub mod tables;
pub mod walk;
