//! A second program for the name service, written from document 01 ("Rules for what is to be
//! built") alone, to hold the first one to.
//!
//! It is written to be compared with the document and not to be fast: a call decodes the whole
//! table, does the steps as they are written, without limits, and judges the limits at the end.
//! Each item stands under the sentence of document 01 that it comes from, in quotation marks.
//!
//! - `bytes`: little-endian numbers
//! - `records`: numbers, names, heads, entries, acknowledgements and the header of a push
//! - `table`: the table and what makes it sound
//! - `push`: a push and what makes it malformed
//! - `steps`: the steps that calls are made of
//! - `calls`: the eleven calls
//! - `variant`: wrong ways to take a step, for tests that must catch them
//!
//! What runs it stands on these:
//!
//! - `random`: random numbers from a seed
//! - `asked`: a call as data, and the answers that it can get
//! - `checks`: what every call must keep
//! - `traffic`, `snapshots`: honest clusters under bad networks and clocks
//! - `forge`, `aims`: tables and messages made by hand, and calls aimed at one answer
//!
//! And these are the runs:
//!
//! - `cluster`: random schedules, held to demand 3
//! - `hostile`: every call on hostile tables, messages and numbers
//! - `requests`, `answer`: requests and answers for a program in another language, and the model
//!   answering them itself

pub mod aims;
pub mod answer;
pub mod asked;
pub mod bytes;
pub mod calls;
pub mod checks;
pub mod cluster;
pub mod forge;
pub mod hostile;
pub mod push;
pub mod random;
pub mod records;
pub mod requests;
pub mod snapshots;
pub mod steps;
pub mod table;
pub mod traffic;
pub mod variant;
