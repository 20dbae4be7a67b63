//! Stand-in for the crate's root and its `mod.rs` files, which are not given.
#![allow(dead_code, unused_imports)]

pub mod constants;
pub mod error;
pub mod io {
    pub mod input;
}
pub mod model {
    pub mod control;
    pub mod curve;
    pub mod demand;
    pub mod junction;
    pub mod link;
    pub mod network;
    pub mod node;
    pub mod options;
    pub mod pattern;
    pub mod pipe;
    pub mod pump;
    pub mod reservoir;
    pub mod rule;
    pub mod tank;
    pub mod units;
    pub mod valve;
}
pub mod solver {
    pub mod state;
}
pub mod utils {
    pub mod time;
}
