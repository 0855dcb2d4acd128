//! A second implementation of document 01, and of 02's tally, drop and writeback,
//! store in digits, caches with a size, journals between the two forms and repeated
//! stores, written from these documents alone; with the checks of demand 3 and of
//! 02's fences.
//!
//! It exists to be compared with the product: the same journal must give the
//! same listing, the same tally and the same journal of the other form, byte for
//! byte. It is plain code, and nothing in it is proved.

pub mod compared;
pub mod conversion_coverage;
pub mod conversion_faults;
pub mod convert;
pub mod coverage;
pub mod damage;
pub mod faults;
pub mod findings;
pub mod forgiving;
pub mod generate;
pub mod journal;
pub mod kept;
pub mod listing;
pub mod machine;
pub mod meaning;
pub mod order;
pub mod program;
pub mod random;
pub mod rows;
pub mod run;
pub mod seeds;
pub mod sequential;
pub mod shrink;
pub mod speed;
pub mod tally;
pub mod text;
