//! The safe calls over the archive.
mod advice;
mod capacity;
mod cases;
mod chance;
mod draws;
mod due;
mod ending;
mod errors;
mod fixture;
mod grants;
mod hosting;
mod notices;
mod places;
mod room;
mod routes;
mod rows;
mod stored;
mod untold;
mod views;
mod why;
mod why_lent;

#[path = "../support/random.rs"]
mod random;
