//! Mutexes, reader-writer locks, condition variables and threads as in std. `goodlock` records what they do.
//!
//! Replace `std::sync` by `goodlock::sync` and `std::thread` by `goodlock::thread`, and run the program with
//! `agents/pthread/goodlock`, which makes its trace and report. Without it the program records nothing.

mod recorder;
pub mod sync;
pub mod thread;
