//! Tests on the specification's examples, its refusals and its properties.

mod cases;
mod examples;
mod greatest;
mod helpers;
mod literal;
mod new_form;
mod order;
mod properties;
mod refusals;
mod rolls;
mod seeded;
mod slips;
mod touch;
mod trim_edge;
mod written;
