//! Stand-in: the solver's state, which reading never makes.

use crate::model::link::LinkStatus;

pub struct SolverState {
    pub demands: Vec<f64>,
    pub heads: Vec<f64>,
    pub flows: Vec<f64>,
    pub settings: Vec<f64>,
    pub statuses: Vec<LinkStatus>,
}
