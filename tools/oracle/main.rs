//! The oracle: answers calls of the original kriging.rs on standard input, a line each. README.md has the protocol.

mod error;
mod exponential;
mod same_spot;

/// The original file, with the driver below it, so that its private functions are in reach.
mod kriging {
    use crate::exponential::PortExp;

    include!(env!("ORACLE_SOURCE"));

    pub mod driver {
        include!("driver.rs");
    }
}

fn main() {
    kriging::driver::run();
}
