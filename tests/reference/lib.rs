//! An independent reading of the scope document: what every file and every lent table must answer.
//! Written from the document's sentences alone, by the plainest definitions, to be held beside the proved library.

pub mod cases;
pub mod compare;
pub mod file;
pub mod finders;
pub mod generate;
pub mod notation;
pub mod printed;
pub mod random;
pub mod run;
pub mod stream;
pub mod tables;
pub mod verdict;
pub mod wire;
pub mod writing;
pub mod writings;
