//! Nothing of authentication is here. This public module carries the oracle out of the crate.

pub use crate::connection::engine::door::oracle::Oracle;
pub use crate::connection::engine::door::said::{Account, Answer, Error, Event, Inner, Mode, Outcome, Phase, Refusal, Role, Settings};
