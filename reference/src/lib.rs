//! The judge once more, written from the customer's paper alone and as plainly as it allows,
//! to be compared with `tracejudge` on lists of calls.

pub mod automata;
pub mod checked;
pub mod chunks;
pub mod compare;
pub mod differences;
pub mod faults;
pub mod follow;
pub mod forms;
pub mod judge;
pub mod lines;
pub mod lists;
pub mod losses;
pub mod made;
pub mod malformed;
pub mod mappings;
pub mod merges;
pub mod patterns;
pub mod random;
pub mod reducedmerges;
pub mod reductions;
pub mod rule;
pub mod samples;
pub mod saved;
pub mod shrink;
pub mod summaries;
pub mod table;
pub mod tally;
pub mod trayfaults;
pub mod trays;
