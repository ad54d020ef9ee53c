//! The flags and options that several commands have.

/// The option of commands that write one file.
pub const OUTPUT: (&str, &str, &str) = ("-o", "FILE", "writes there, not to standard output");

#[cfg(call_run)]
pub const NUMBERS: (&str, &str) = ("--numbers", "one number a leaf in place of names");
#[cfg(call_run)]
pub const FROM: (&str, &str, &str) =
    ("--from", "SHEET", "begins with what the delays hold in this sheet");
