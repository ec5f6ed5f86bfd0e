//! The proved archive held against the second implementation.
//!
//! * [`sides`]: the two implementations behind one trait; [`planted`]: one with an error put in.
//! * [`case`]: one case as values and as text ([`text`]); [`answer`]: what a side answers, and where two answers
//!   differ.
//! * [`sorts`]: cases from seeds; [`tally`]: what came up; [`shrink`]: a smaller case; [`report`]: a difference as
//!   text.
//! * [`tables`]: tables of a wanted size and shape; [`stack`]: how deep a call goes.

pub mod answer;
pub mod case;
pub mod planted;
pub mod report;
pub mod shrink;
pub mod sides;
pub mod sorts;
pub mod stack;
pub mod tables;
pub mod tally;
pub mod text;
