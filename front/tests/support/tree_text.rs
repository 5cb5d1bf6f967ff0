//! A formula that is large and not deep.

/// A tree of so many levels of `&&` over `true`: n levels have 2 to the n + 1 nodes, less 1.
pub fn tree(levels: usize) -> String {
    (0..levels).fold("true".to_string(), |below, _| format!("({below} && {below})"))
}
