//! Answers on the coil: the coder, the decoder, and answers that are laid over
//! one another.

pub mod coding;
pub mod decoding;
pub mod overlays;
