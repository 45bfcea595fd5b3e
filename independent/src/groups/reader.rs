//! The reader: exchanges with cards, answers that are no card's, and requests
//! that are not made.

pub mod answers;
pub mod exchanges;
pub mod making;

mod draws;
mod held;
mod table;
