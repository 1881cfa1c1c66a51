//! Calls that are counted by their own text.

/// Counts each of these by its text, and by a number of many where one is given.
macro_rules! hold {
    ($checks:expr; $($holds:expr),+ $(,)?) => {{
        $($checks.holds(stringify!($holds), $holds);)+
    }};
    ($checks:expr, $number:expr; $($holds:expr),+ $(,)?) => {{
        $($checks.holds_at(stringify!($holds), $number, $holds);)+
    }};
}

/// Counts each of these in the same way, and is `Ok`: the last of calls that take memory.
macro_rules! done {
    ($($rows:tt)+) => {{
        $crate::counted::hold!($($rows)+);
        Ok(())
    }};
}

pub(crate) use done;
pub(crate) use hold;
