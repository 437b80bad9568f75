//! Tests by running for the talk-group planner, and its benchmark.
//!
//! | module      | what it is for                                                              |
//! |-------------|-----------------------------------------------------------------------------|
//! | `calls`     | the planner's calls and answers, one trait for every implementation         |
//! | `reference` | an independent planner, written for the reader, by the definitions          |
//! | `calendar`  | dates and their weekdays: one by itself, and every one counted              |
//! | `fast`      | an optimised unverified planner, the benchmark's opponent                   |
//! | `ffi`       | the proved planner, through its C interface (feature `proved`)              |
//! | `sites`     | sites to try, their images, and renumberings of images                      |
//! | `damage`    | damaged images                                                              |
//! | `numbers`   | numbers and tables for the writer to try                                    |
//! | `times`     | times, working hours and two plans to try                                   |
//! | `examples`  | the inputs stored with the report programs                                  |
//! | `reaches`   | wrong ways to find a reach, for the tests of `compare` and `sites`          |
//! | `compare`   | one image, or many times, through a planner's calls, against the reference  |

pub mod calendar;
pub mod calls;
pub mod compare;
pub mod damage;
pub mod examples;
pub mod fast;
#[cfg(feature = "proved")]
pub mod ffi;
pub mod numbers;
#[cfg(test)]
mod reaches;
pub mod reference;
pub mod sites;
pub mod times;
