//! How sides are timed, and how that is told. Both programs share it.

mod clock;
pub mod machine;
pub mod measure;
pub mod options;
pub mod table;

/// The median of ratios, and the quartiles in brackets.
pub fn ratio([lower, median, upper]: [f64; 3]) -> String {
    format!("{median:.2} ({lower:.2} to {upper:.2})")
}

/// The least sizes take some nanoseconds.
pub fn micros(nanos: f64) -> String {
    let digits = if nanos < 1000.0 { 3 } else { 1 };
    format!("{:.digits$}", nanos / 1000.0)
}
