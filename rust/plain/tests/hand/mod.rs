//! Bytes and bodies written by hand.

use plain::{BodyLiteral, Literal};

/// The bytes of the hexadecimal parts, one after the other.
pub fn bytes(parts: &[&str]) -> Vec<u8> {
    let digits: Vec<u32> = parts
        .iter()
        .flat_map(|part| part.chars())
        .filter(|character| !character.is_whitespace())
        .map(|character| character.to_digit(16).expect("a hexadecimal digit"))
        .collect();
    assert_eq!(digits.len() % 2, 0, "half a byte in {parts:?}");
    digits
        .chunks(2)
        .map(|pair| (pair[0] * 16 + pair[1]) as u8)
        .collect()
}

/// The body with these numbers, of which FFFF is u.
pub fn body_literals(numbers: &[u16]) -> Vec<BodyLiteral> {
    let literal = |&number: &u16| match number {
        0xFFFF => BodyLiteral::Undefined,
        _ => BodyLiteral::Literal(Literal(number)),
    };
    numbers.iter().map(literal).collect()
}
