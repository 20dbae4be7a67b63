//! Stand-in: the types by which a network is changed after reading.

macro_rules! types {
    ($($name:ident)*) => { $(pub struct $name;)* };
}

types! {
    CurveData CurveUpdate JunctionData JunctionUpdate LinkUpdate NodeUpdate PatternData PatternUpdate PipeData
    PipeUpdate PumpData PumpUpdate ReservoirData ReservoirUpdate TankData TankUpdate ValveData ValveUpdate
}
