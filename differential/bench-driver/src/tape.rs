//! The oracle's tape player: a tape's items, and the station that they are run on.

#[path = "../../oracle/src/tape/item.rs"]
pub mod item;
#[path = "../../oracle/src/tape/run.rs"]
pub mod run;
