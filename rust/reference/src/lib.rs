//! Plain Rust written from the standards and documents 01 and 02, not from the Rattle sources: the proved library is tested
//! against it and its speed is measured against it.

pub mod hmac;
pub mod sha256;
pub mod tree;
pub mod volume;
