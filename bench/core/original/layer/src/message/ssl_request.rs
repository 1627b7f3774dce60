//! Stands in for the original's file of this name, which the benchmark never calls.

pub struct SslRequest;
