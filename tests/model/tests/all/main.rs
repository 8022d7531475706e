//! The tests of the model, by subject.

mod channel;
mod common;
mod counts;
mod examples;
mod local_runs;
mod place;
mod repeats;
mod runs;
mod sidings;
mod table;
mod tally;
mod timing;
mod together;
mod total;
mod tracks;
mod vectors;
