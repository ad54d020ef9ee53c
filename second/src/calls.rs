//! The calls. Each line declares the folder of one and lists its comparisons
//! and commands: a new call adds its folder, and a line here.

use crate::frame::entry::Call;

/// Declares the modules, and lists what each of them has in its `CALL`.
macro_rules! calls {
    ($($(#[$about:meta])* pub mod $call:ident;)*) => {
        $($(#[$about])* pub mod $call;)*

        pub const CALLS: &[&Call] = &[$(&$call::CALL),*];
    };
}

calls! {
    pub mod checks;
    pub mod runs;
    pub mod previews;
    pub mod firings;
    pub mod presses;
    pub mod counts;
    pub mod possibles;
    pub mod replays;
    pub mod reports;
    pub mod carries;
    pub mod texts;
}
