//! ISO/IEC 15693-3:2009, Table 1, by ranges of numbers: apart from the
//! reference's way, so that each is held against the other.

/// The row of an asked AFI; X and Y are 1 to F.
pub fn row(asked: u8) -> &'static str {
    match asked {
        0x00 => "00",
        0x01..=0x0F => "0Y",
        _ if asked.is_multiple_of(16) => "X0",
        _ => "XY",
    }
}

/// Whether the family, where above 255 is none, calls a card of that AFI.
pub fn calls(family: u16, own: u8) -> bool {
    let Ok(asked) = u8::try_from(family) else { return true };
    match row(asked) {
        "00" => true,
        "X0" => (asked..=asked + 15).contains(&own),
        _ => own == asked,
    }
}
