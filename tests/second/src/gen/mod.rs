//! Seeded tables, directive lists and cases.
//!
//! * [`good`]: tables that read and type, written by following the typing rules. About
//!   half of them pass only since INIT settles arrays (02's order 3).
//! * [`spoiled`]: tables that read but fail with a chosen number from 10 to 14
//!   (and 6, which needs a table of its own), with the place that is due.
//! * [`damaged`]: tables that fail with a chosen number from 1 to 9, with the
//!   place that is due; [`mutated`]: good tables with a few bytes changed;
//!   [`altered`]: with a few fields changed within their ranges, so that they
//!   read; [`random`]: bytes by chance.
//! * [`by_rules`]: tables that type by other rules; [`check_by`]: whether one does.
//! * [`directives()`]: lists that follow the right path, or speculate at every
//!   chance, or go wrong; [`damaged_directives`]: lists that fail with 16.
//! * [`check_case`], [`run_case`]: a mixture of all of these.
//!
//! The rules are written here a second time, plainly, level by level
//! (`model`), so that the checker's bit arithmetic does not vouch for itself.

mod alter;
mod author;
mod cases;
mod damage;
mod directives;
mod model;
mod mutate;
mod rng;
mod rules;
mod tables;

pub use alter::altered;
pub use author::Shape;
pub use cases::{check_case, run_case, Expected, RunCase};
pub use damage::{damaged, records};
pub use directives::{
    damaged_directives, directives, other_secrets, state, write_directives, Style, Written,
};
pub use model::check_by;
pub use mutate::{mutated, random};
pub use rng::Rng;
pub use rules::Rules;
pub use tables::{by_rules, good, good_of, of_shape_by, padded, spoiled};
