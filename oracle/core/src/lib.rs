//! The twelve Rust files of docs/src, copied by build.rs, and the stand-ins beside them.

include!(concat!(env!("OUT_DIR"), "/core/root.rs"));

#[cfg(feature = "planted")]
mod slips {
    use std::cell::Cell;

    thread_local!(static PLANTED: Cell<Option<usize>> = const { Cell::new(None) });

    /// From here on this comparison is the wrong one; none with `None`.
    pub fn plant(slip: Option<usize>) {
        PLANTED.set(slip);
    }

    pub(crate) fn planted(slips: &[usize], right: bool, wrong: bool) -> bool {
        match PLANTED.get() {
            Some(slip) if slips.contains(&slip) => wrong,
            _ => right,
        }
    }

    include!(concat!(env!("OUT_DIR"), "/core/slips.rs"));
}

#[cfg(feature = "planted")]
pub use slips::*;
