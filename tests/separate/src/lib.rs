//! Document 01's order log with requests 1 to 8 of document 02, written from the documents and apart from the library, and
//! what compares the two: by whole step files (the program `sessions`), by direct calls on ordinary and damaged memories
//! (`calls`), by logs for the archive (`archives`), and in time (`bench`).

pub mod archive;
#[cfg(feature = "library")]
pub mod archived;
pub mod bands;
#[cfg(feature = "library")]
pub mod batch;
pub mod busy;
pub mod call;
pub mod cases;
#[cfg(test)]
mod check_points;
pub mod coin;
#[cfg(feature = "library")]
pub mod compare;
pub mod conducted;
pub mod conductor;
pub mod counted;
pub mod counts;
pub mod damage;
pub mod filled;
#[cfg(feature = "library")]
pub mod fixed;
pub mod framed;
pub mod generate;
#[cfg(feature = "library")]
pub mod library;
pub mod logs;
pub mod long_runs;
pub mod memories;
pub mod notices;
pub mod numbers;
pub mod options;
pub mod orders;
pub mod outcomes;
pub mod phases;
pub mod planes;
pub mod racks;
pub mod random;
pub mod rank;
pub mod refusal;
pub mod rules;
pub mod script;
pub mod step_file;
pub mod strips;
pub mod tally;
pub mod urgent;
