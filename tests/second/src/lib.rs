//! The second program: what the proved core must answer, written from the papers alone.

pub mod hex;
pub mod prng;

// The model of joining and of the lines.
pub mod joiner;
#[cfg(test)]
mod joiner_tests;
pub mod replay;

// Recordings worked out by hand.
pub mod edges;
pub mod edges_files;
pub mod edges_joining;
pub mod edges_refused;
pub mod edges_setup;

// Recordings from a seed.
pub mod compose;
pub mod genuine;
pub mod make;
pub mod make_bad;
pub mod make_senders;
pub mod sent;

// The comparison with the program under test.
pub mod program;
pub mod run;

// Models of the other calls.
pub mod cutting;
pub mod message;
#[cfg(test)]
mod message_tests;
pub mod payload;
#[cfg(test)]
mod payload_tests;
pub mod pending;
#[cfg(test)]
mod places_tests;
pub mod platform;
#[cfg(test)]
mod platform_tests;
#[cfg(test)]
mod requests_tests;
pub mod take;
pub mod types;
#[cfg(test)]
mod types_tests;

// Partners of Issue 3.
pub mod message3;
#[cfg(test)]
mod message3_tests;
pub mod mixed;
#[cfg(test)]
mod mixed_tests;
pub mod partners;
#[cfg(test)]
mod partners_services_tests;
#[cfg(test)]
mod partners_tests;
pub mod services;
#[cfg(test)]
mod services_tests;
#[cfg(test)]
mod silence_tests;
#[cfg(test)]
mod walk_tests;

// Files of calls for `answers`: the lines that they must give.
pub mod answers;
pub mod answers3;
pub mod call;

// Files of calls from a seed.
pub mod calls;
pub mod calls_bad;
pub mod calls_bench;
pub mod calls_compose;
pub mod calls_crowds;
pub mod calls_cutting;
pub mod calls_damage;
pub mod calls_flat;
pub mod calls_issue3;
pub mod calls_joiners;
pub mod calls_ledger;
pub mod calls_lists;
pub mod calls_messages;
pub mod calls_messages3;
pub mod calls_operations;
pub mod calls_payloads;
pub mod calls_platforms;
pub mod calls_requests;
pub mod calls_tables;
pub mod calls_values;

// Files of calls worked out by hand, and one call of each code at every edge.
#[macro_use]
mod calls_cases_parts;
#[macro_use]
mod calls_cases_parts3;
pub mod calls_cases;
pub mod calls_cases_bad;
pub mod calls_cases_char8;
pub mod calls_cases_full;
pub mod calls_cases_issue3;
pub mod calls_cases_joining;
pub mod calls_cases_lists;
pub mod calls_cases_mixed;
pub mod calls_cases_partners;
pub mod calls_cases_payload;
pub mod calls_cases_places;
pub mod calls_cases_plans;
pub mod calls_cases_platform;
pub mod calls_cases_requests;
pub mod calls_cases_wide;
pub mod calls_every;
#[cfg(test)]
mod calls_every_tests;

// The comparison with `answers`.
pub mod compare;
