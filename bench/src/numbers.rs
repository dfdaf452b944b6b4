//! Times and ratios as people read them: three digits or so.

pub fn time(seconds: f64) -> String {
    match seconds {
        small if small < 1e-6 => format!("{} ns", digits(small * 1e9)),
        small if small < 1e-3 => format!("{} µs", digits(small * 1e6)),
        other => format!("{} ms", digits(other * 1e3)),
    }
}

pub fn ratio(ratio: f64) -> String {
    if ratio < 0.01 {
        format!("{ratio:.4}")
    } else {
        digits(ratio)
    }
}

fn digits(number: f64) -> String {
    match number {
        small if small < 10.0 => format!("{small:.2}"),
        small if small < 100.0 => format!("{small:.1}"),
        other => format!("{other:.0}"),
    }
}
