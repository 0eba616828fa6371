//! What a planner hands in: a group and what is done to it.

/// The octets of `group.dat`, and of `steps.dat` or, in a plan, `plan.dat`.
#[derive(Clone, Debug, Default, PartialEq, Eq)]
pub struct Evening {
    pub group: Vec<u8>,
    pub records: Vec<u8>,
    pub plan: bool,
}

impl Evening {
    /// The octets of one record: a step's, or a plan's.
    pub fn record_length(&self) -> usize {
        record_length(self.plan)
    }
}

pub const STEP_LENGTH: usize = 6;
pub const OPERATION_LENGTH: usize = 9;

pub fn record_length(plan: bool) -> usize {
    if plan {
        OPERATION_LENGTH
    } else {
        STEP_LENGTH
    }
}
