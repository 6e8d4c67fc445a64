//! Each test cites the clauses of docs/SPECIFICATION.md that it would see broken.

mod agreement;
mod builder;
mod conditions;
mod corners;
mod counting;
mod division;
mod examples;
mod limits;
mod picks;
mod refusals;
mod runs;
mod start;
