//! Holds the proved library against the independent one: a header is read once by each, and the two have to agree on
//! every input.
//!
//! [`side`] puts both behind one interface; [`sections`], [`section_properties`], [`writing`], [`places`], [`fields`],
//! [`alike`], [`queues`], [`requests`], [`listing`], [`copies`], [`days`], [`portions`] and [`values`] compare two sides
//! on generated cases, [`classes`], [`pairs`], [`retired`], [`sweeps`] and [`examples`] on fixed ones; [`proposed`]
//! makes the copies that both are asked about, and [`properties`] says what has to hold of one side alone. Each takes
//! its sides as arguments, so that a test can put a wrong one there.

#![forbid(unsafe_code)]
#![warn(missing_docs)]

pub mod alike;
pub mod bits;
pub mod classes;
pub mod copies;
pub mod days;
pub mod examples;
pub mod fields;
pub mod held;
pub mod lend;
pub mod library;
pub mod listing;
pub mod pairs;
pub mod places;
pub mod portions;
pub mod properties;
pub mod proposed;
pub mod queues;
pub mod report;
pub mod requests;
pub mod retired;
pub mod second;
pub mod section_properties;
pub mod sections;
pub mod side;
pub mod sweeps;
pub mod values;
pub mod writing;
