//! A plain judge and a plain maker of stuttering certificates, with a plain enquiry and a
//! plain commit, a plain follower of runs and a plain writer of tables.
//!
//! Every notion of the scope document and of the change requests has one function
//! here, and the comment above it quotes the sentence it follows, so that the two can
//! be read side by side. Nothing is tuned for speed; `tuned`, `tuned_maker`,
//! `tuned_follow` and `tuned_write` are, and are checked against the rest.

mod certificate;
mod enquiry;
mod follow;
mod judge;
mod listing;
mod maker;
mod path;
mod program;
mod side;
mod table;
pub mod tuned;
pub mod tuned_follow;
pub mod tuned_maker;
pub mod tuned_write;
mod write;

pub use certificate::Layout;
pub use enquiry::{commit, commit_by_relaxing, enquire, enquire_by_relaxing, Slip};
pub use follow::follow;
pub use judge::judge;
pub use listing::{list, listing_program, Line};
pub use maker::{make, make_by, make_by_relaxing, make_by_sets};
pub use path::path_property;
pub use program::{pieces, program};
pub use side::Side;
pub use table::{read_table, Form, Kind, Step, Table, TableLayout};
pub use write::write;

/// "Six numbers: code, file, a, b, c, d."
pub type Answer = [u64; 6];
