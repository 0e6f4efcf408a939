//! A second implementation of the scheduler, written from the rule sheet and the requests alone,
//! to hold the proved one against it. It is brute force on purpose: nothing is
//! kept but the connections, and everything else (who owns which block, the
//! tree of taken blocks) is worked out anew from them each time it is asked for.
//!
//! * `schedule`: the connections, who owns a block, the tree, and the calls.
//! * `reports`: a list of reports, and the entries that answer them.
//! * `tidy`: the connections placed anew, and the list of those that moved.
//! * `image`: the image's bytes, written and read back with their checks.
//! * `messages`: the subrate messages of the Core Specification, read and written.
//! * `script`: the lines of text that drive it, and their answers.
//! * `fault`: thirty-one slips that can be planted, to show that a comparison finds them.

#![forbid(unsafe_code)]

pub mod fault;
pub mod image;
pub mod messages;
pub mod reports;
pub mod schedule;
pub mod script;
pub mod tidy;
