//! Inputs for the judge, the maker, the enquiry, the commit, the follower, the writer and the
//! two programs: the same ones for the same seed. `JudgeCases`, `MakeCases`, which are also
//! for the enquiry, `CommitCases`, `FollowCases`, `WriteCases`, `ProgramCases` and
//! `ListingCases` are iterators over them.

mod byte_edits;
mod certificate_edits;
mod certified;
mod commit_cases;
mod families;
mod follow_cases;
mod judge_cases;
mod keys;
mod listing_cases;
mod make_cases;
mod marks;
mod program_cases;
mod random;
mod run_edits;
mod slips;
mod spaced;
mod split;
mod starts;
mod system;
mod system_edits;
mod table_edits;
mod walks;
mod write_cases;
mod write_edits;

pub use commit_cases::{CommitCase, CommitCases, OF_EARLIER, OF_ENQUIRY, OF_INPUTS};
pub use families::{all_related, any_system, long_chains, long_distances, long_waits};
pub use families::{all_related_with_keys, fullest_with_keys};
pub use families::{long_chains_with_keys, long_distances_with_keys};
pub use follow_cases::{FollowCase, FollowCases};
pub use judge_cases::{JudgeCase, JudgeCases};
pub use listing_cases::ListingCases;
pub use make_cases::{MakeCase, MakeCases};
pub use program_cases::{joined, ProgramCase, ProgramCases, PROGRAM_FORMS};
pub use random::Random;
pub use run_edits::{Run, RUN_EDITS};
pub use slips::{other_slips, slip_numbers};
pub use spaced::spaced;
pub use system::{relation_bytes, save_in, table_bytes, Forms, System, VERSIONS};
pub use write_cases::{WriteCase, WriteCases};
pub use write_edits::{OUTPUT_EDITS, WRITE_EDITS};
