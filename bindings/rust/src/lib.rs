//! cepage in a test: a script in, what each line did out.
//!
//! ```
//! let script = "class Card
//! on Card connected : log in
//! define x-card Card
//! create $html html
//! append doc $html
//! create $card x-card
//! append $html $card
//! ";
//! let card = cepage::run(script)?;
//! assert_eq!(card.status(), cepage::Status::Done);
//! card.command(7).expect(["call #3 connected", "log \"in\"", "ok"]);
//! card.command(7).expect_heard(3, ["connected"]);
//! # Ok::<(), cepage::Error>(())
//! ```
//!
//! The program is the one that [`Options::program`] names, else that of the environment variable `CEPAGE`, else `cepage` on
//! the path. Where the crate was built with the library (`CEPAGE_ARCHIVE`, in its README), [`run`] calls that and starts
//! nothing. Linux alone.
#![warn(missing_docs)]

mod command;
mod error;
mod failure;
#[cfg(cepage_library)]
mod library;
mod lines;
mod names;
mod options;
mod past;
mod pipe;
mod program;
mod reading;
mod run;
mod script;
mod selection;
mod sent;
mod session;
mod status;
mod tokens;

pub use command::Command;
pub use error::Error;
pub use lines::{Answer, Callback, Cause, Fault, Kind, Line, Node, Outcome, Reply, Submit, Trace};
pub use names::{Bad, Enqueued, FaultName, Flag, Mode, State};
pub use options::{has_library, run, Options};
pub use reading::{read_line, read_transcript};
pub use run::Run;
pub use selection::Lines;
pub use sent::entries_sent;
pub use session::Session;
pub use status::Status;
