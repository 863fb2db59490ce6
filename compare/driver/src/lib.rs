//! What the comparison and the bench share: a call, the library that makes it, the crate that makes it too, reports,
//! settings, and random numbers.

pub mod call;
pub mod library;
pub mod oracle;
pub mod random;
pub mod report;
pub mod settings;
