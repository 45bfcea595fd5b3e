//! What the programs here share: the independent implementation, and what
//! draws its inputs.

pub mod crowds;
pub mod random;
pub mod reference;
