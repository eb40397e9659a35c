//! The command line, run as a user would run it.

mod accuracies;
mod check;
mod deposits;
mod desk;
mod form;
mod held;
mod interrupted;
mod killed;
mod ledgers;
mod moving;
mod pad;
mod places;
mod pointing;
mod pull;
mod rewrite;
mod scripts;
mod sheet;
mod show;
mod troubles;
mod usage;
