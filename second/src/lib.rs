//! The second program: digests, tags, forms and rules written anew from the standards and document 01, to compare with.
//! It shares nothing with the proved code.

pub mod aes;
pub mod cmac;
pub mod codec;
pub mod sha256;
pub mod term;
pub mod verifier;
