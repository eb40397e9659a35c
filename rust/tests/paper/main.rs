//! The paper's own examples, faults and slips, worked out by hand, and
//! generated files.

mod accuracies;
mod beginnings;
mod columns;
mod every_change;
mod examples;
mod faults;
mod files_tried;
mod generated;
mod padding;
mod pointing;
mod published;
mod pulling;
mod reading;
mod receivers;
mod sample;
mod sheet;
mod slips;
mod structure;
mod two_calls;
mod writing;
