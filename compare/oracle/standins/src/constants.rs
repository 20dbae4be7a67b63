//! Stand-in: conversions and the solver use these, reading does not. No value counts here.
#![allow(non_upper_case_globals)]

pub use std::f64::consts::PI;

macro_rules! constants {
    ($($name:ident)*) => { $(pub const $name: f64 = 1.0;)* };
}

constants! {
    AFDperCFS BARperFT CMDperCFS CMHperCFS CMSperCFS GPMperCFS IMGDperCFS KPAperFT KWperHP LPMperCFS LPSperCFS
    M3perFT3 MGDperCFS MLDperCFS MperFT PSIperFT
    BIG_VALUE CV_HEAD_EPSILON H_TOL L_TOL Q_TOL Q_ZERO RQ_TOL SMALL_VALUE TINY VISCOSITY
}
