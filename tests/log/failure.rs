//! A difference between model and library, as the lines to print.

use std::fmt::Debug;

pub struct Failure(pub String);

/// Compares what one call gave on both sides.
pub fn same<T: PartialEq + Debug>(
    model: &T,
    library: &T,
    call: impl FnOnce() -> String,
) -> Result<(), Failure> {
    if model == library {
        return Ok(());
    }
    Err(Failure(format!("{}\n  model:   {model:?}\n  library: {library:?}", call())))
}

/// Compares lent bytes or tables whole; names the first place that differs.
pub fn same_content<T: PartialEq + Debug>(
    what: &str,
    model: &[T],
    library: &[T],
    call: impl FnOnce() -> String,
) -> Result<(), Failure> {
    if model == library {
        return Ok(());
    }
    let place = model.iter().zip(library).position(|(m, l)| m != l);
    let place = place.unwrap_or(model.len().min(library.len()));
    let from = place.saturating_sub(4);
    let part = |list: &[T]| format!("{:?}", &list[from..list.len().min(from + 24)]);
    Err(Failure(format!(
        "{}\n  the {what} differ first at {place} of {}; from {from} on:\n  model:   {}\n  library: {}",
        call(),
        model.len(),
        part(model),
        part(library)
    )))
}

/// A figure of the papers, against what was found.
pub fn expect<T: PartialEq + Debug>(what: &str, found: T, figure: T) -> Result<(), Failure> {
    if found == figure {
        return Ok(());
    }
    Err(Failure(format!("{what} is {found:?}, and the papers say {figure:?}")))
}
