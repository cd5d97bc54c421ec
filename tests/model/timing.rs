//! The circular window.

/// Whether p is in the window from on to off.
pub fn in_window(on: u32, off: u32, p: u32) -> bool {
    match on.cmp(&off) {
        std::cmp::Ordering::Less => (on..off).contains(&p),
        std::cmp::Ordering::Greater => !(off..on).contains(&p),
        std::cmp::Ordering::Equal => false,
    }
}
