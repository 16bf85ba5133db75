//! Versions, as (major, minor, patch).

use crate::calls;

/// This package's version, which is the header's too.
pub const VERSION: (u32, u32, u32) = (
    decimal(env!("CARGO_PKG_VERSION_MAJOR")),
    decimal(env!("CARGO_PKG_VERSION_MINOR")),
    decimal(env!("CARGO_PKG_VERSION_PATCH")),
);

/// The version of the `libkoralimbu.a` that is linked. Where it is not [`VERSION`], the two must not be used together.
pub fn version() -> (u32, u32, u32) {
    parts(calls::version())
}

fn parts(number: u32) -> (u32, u32, u32) {
    (number / 1_000_000, number / 1_000 % 1_000, number % 1_000)
}

/// The number that Cargo writes in decimal digits.
const fn decimal(digits: &str) -> u32 {
    let digits = digits.as_bytes();
    let (mut number, mut at) = (0, 0);
    while at < digits.len() {
        number = number * 10 + (digits[at] - b'0') as u32;
        at += 1;
    }
    number
}

#[cfg(test)]
mod tests {
    use super::*;

    #[test]
    fn a_number_in_parts() {
        assert_eq!(parts(8_000), (0, 8, 0));
        assert_eq!(parts(12_034_567), (12, 34, 567));
    }

    #[test]
    fn decimal_digits() {
        assert_eq!((decimal("0"), decimal("7"), decimal("120")), (0, 7, 120));
    }
}
