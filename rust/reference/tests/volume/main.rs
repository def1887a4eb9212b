//! The reference's volume: document 01's examples, histories with cuts against the ledger, the order of refusals, what
//! each call does, tags that lie across two sectors, and inputs of any kind; all by both tag rules.

mod any_input;
mod calls;
mod cuts;
mod effects;
mod examples;
mod histories;
mod keyed;
mod ledger;
mod refusals;
mod setting;
mod soundness;
mod third_stores;
mod verify;
mod world;
