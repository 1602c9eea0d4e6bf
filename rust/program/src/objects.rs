//! The objects that `quic-wire capture --json` and `quic-wire check --json` print, for those who read captures
//! themselves. docs/capture.schema.json and docs/check.schema.json of the repository describe them.
//!
//! A [`Report`] is a sink for what a follower finds, and writes in [`Form`]s, of which [`CaptureJson`] is one.
//! [`CheckJson`] writes what a checker found.
pub use crate::args::Filter;
pub use crate::capture::json::Json as CaptureJson;
pub use crate::capture::object::Object;
pub use crate::capture::qlog::{Qlog, Traces};
pub use crate::capture::reading::{Taker, said as error_text};
pub use crate::capture::report::{Form, Packet, Part, Place, Report, Sum, Whole, frame_of, is_plain};
pub use crate::capture::screen::Lines;
pub use crate::capture::words;
pub use crate::check::json::Json as CheckJson;
pub use crate::check::{Form as CheckForm, Whole as Checked};
pub use crate::fault::broken_rule;
pub use crate::output::{Field, Value};
pub use crate::params::all as parameter_fields;
