//! Arithmetic modulo 257, on words 0 to 256.

pub const P: u32 = 257;

pub fn add(a: u32, b: u32) -> u32 {
    (a + b) % P
}

pub fn subtract(a: u32, b: u32) -> u32 {
    (a + P - b) % P
}

pub const fn multiply(a: u32, b: u32) -> u32 {
    a * b % P
}

pub const fn power(a: u32, exponent: u32) -> u32 {
    match exponent {
        0 => 1,
        _ if exponent % 2 == 1 => multiply(a, power(a, exponent - 1)),
        _ => power(multiply(a, a), exponent / 2),
    }
}

/// Computed by Fermat's little theorem, so that no table of reciprocals can be wrong in both
/// programs. That makes the reciprocal of 0 be 0, as on the page.
static RECIPROCALS: [u32; P as usize] = {
    let mut reciprocals = [0; P as usize];
    let mut a = 0;
    while a < P {
        reciprocals[a as usize] = power(a, P - 2);
        a += 1;
    }
    reciprocals
};

pub fn reciprocal(a: u32) -> u32 {
    RECIPROCALS[a as usize]
}

/// The value at x of the polynomial with these coefficients, constant first.
pub fn value(coefficients: &[u32], x: u32) -> u32 {
    coefficients.iter().rev().fold(0, |value, &c| add(multiply(value, x), c))
}
