//! The tests of the crate, with the program in CEPAGE.
mod failure;
mod reading;
mod running;
mod sent;
mod session;
mod spelled;
mod support;
