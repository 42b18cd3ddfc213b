//! Parts of the benchmark that need no archive to link with.

pub mod plain;
pub mod steps;

#[cfg(test)]
mod tests;
