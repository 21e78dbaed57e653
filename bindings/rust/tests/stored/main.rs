//! Replays the stored answers of docs/TESTS.md.
mod fits;
mod older_calls;
mod words;
