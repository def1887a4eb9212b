//! The proved volume against the reference: answers, states and every byte of every buffer, after each call.
//!
//! What is covered where:
//! - `histories`: calls in a row, the state kept between them; cuts, damaged bytes, ids up to the last, full batches.
//! - `cuts`: a cut at every store of short histories and of their recoveries, with one, two and three sections, and between the two
//!   stores of a tag that lies across two sectors.
//! - `tag_sizes`: each tag size, with tags in one sector and across two where there are such, and what stands behind a tag.
//! - `states`: single calls on states that are sound, and that break each clause of soundness.
//! - `journals`: sections that are torn, misplaced, of equal ids, of ids up to 2^64 - 1, with entries not below the number
//!   provided or tags that do not fit; recoveries, commits and write-backs from any place on.
//! - `superblocks`: each byte and each number of a superblock wrong.
//! - `orders`: each refusal of each call, alone and before each later one.
//! - `refusals`: each refusal by the safe wrapper: its values and what it says.
//! - `buffers`: buffers of wrong lengths, state buffers of any bytes, volumes around the greatest length.
//! - `formats`: formatted volumes, the greatest too, all their tags verified, and formats that are refused.
//! - `advances`: so many steps at once against as many single ones.
//! - `next_stores`: stores told, on a volume that is mapped for reading only, against steps; cuts before and after each.
//! - `failing_stores`: the same by the safe wrapper, with stores that fail or are given up, against the ledger.
//! - `any_input`: volumes, staging, states and arguments of any kind.
//! - `keyed`: keys of every length, right, wrong and missing ones; most of the others run with a key too.
//! - `examples`: document 01's examples, and document 02's for order 4.
//!
//! `histories`, `states`, `journals`, `cuts`, `next_stores` and `failing_stores` count the kinds of cases that they reach, and
//! fail if one is too seldom. `histories`, `states`, `journals`, `formats` and `any_input` also fail if a tag size never comes.

mod advances;
mod any_input;
mod buffers;
mod by_reference;
mod by_wrapper;
mod cuts;
mod examples;
mod failing_stores;
mod formats;
mod histories;
mod journals;
mod keyed;
mod loans;
mod mapped;
mod next_stores;
mod orders;
mod refusals;
mod states;
mod superblocks;
mod tag_sizes;
