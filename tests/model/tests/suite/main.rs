//! The tests of the model, in one program so that it is built once.

mod compared;
mod edges;
mod feel;
mod generators;
mod helpers;
mod index;
mod index_runs;
mod launch;
mod launches;
mod leaving;
mod lines;
mod listings;
mod places;
mod programs;
mod runs;
mod soundness;
mod steps;
mod strangers;
mod wrong_index;
mod wrong_readings;
mod wrong_strangers;
