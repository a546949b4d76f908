//! The programs' options: `--name value` pairs.

/// The value of an option, if it was given.
pub fn option(name: &str) -> Option<String> {
    let mut arguments = std::env::args().skip_while(|argument| argument != name);
    arguments.next()?;
    arguments.next()
}

/// As `option`, for a number.
pub fn number(name: &str, usual: u64) -> u64 {
    option(name).map_or(usual, |value| value.parse().unwrap_or_else(|_| panic!("{name} takes a number")))
}
