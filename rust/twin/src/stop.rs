//! Why a stage stops: the number of the refusal and what it speaks of. There is no text in it and nothing on the heap, so that who only wants the
//! number pays nothing for the place.

use crate::{capture, heap, image, limits, module, policy, record, walk};

/// The number of a refusal, and what it speaks of.
#[derive(Clone, Copy, Debug, PartialEq, Eq)]
pub struct Stop {
    pub number: u32,
    pub place: Place,
}

/// What a refusal speaks of, by the stage that stopped.
#[derive(Clone, Copy, Debug, PartialEq, Eq)]
pub enum Place {
    /// 1.
    Limits(limits::Fault),
    /// 2 to 5.
    Heap(heap::Fault),
    /// 6 to 11.
    Module(module::Fault),
    /// 12, 13, 21 and 22.
    Image(image::Fault),
    /// 14 to 20.
    Walk(walk::Fault),
    /// 23 to 25.
    Record(record::Fault),
    /// 26 and 27.
    Policy(policy::Fault),
    /// 28.
    PolicyHash,
    /// 29.
    NoList,
    /// 30.
    Capture(capture::Fault),
}

/// Stops with a fault where the condition does not hold. The fault is not made a [`Stop`] here, since a capture is split by callers that want the fault.
#[inline(always)]
pub(crate) fn need<F>(holds: bool, fault: F) -> Result<(), F> {
    if holds {
        return Ok(());
    }
    Err(fault)
}
