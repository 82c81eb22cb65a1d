//! Runs two builds side by side on random lists of calls, and compares answers, reports, records and every table entry; and
//! runs one build on the calls of a file.

pub mod builders;
pub mod call;
pub mod corrections;
pub mod drives;
pub mod entries;
pub mod generate;
pub mod guarded;
pub mod marks;
pub mod merges;
pub mod nodes;
pub mod run;
pub mod script;
pub mod spheres;
pub mod stop;
pub mod tally;

#[cfg(feature = "archive")]
pub use builders::Archive;
pub use builders::{named, names, Builder, Plain, Tuned};
pub use run::{run, Ran};
pub use script::Script;
pub use stop::Stop;
pub use tally::Tally;
