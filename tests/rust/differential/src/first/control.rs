//! Which parts of refused control records were wrong, alone and together.

use agreement::case::Case;
use reference::batch::{refusal_06, refusal_20, refusal_21};

use crate::runs::Group;
use crate::trial::Trial;

pub const CONTROL: Group = (
    "control records refused by 6, 20 and 21",
    &[
        "CTL",
        "state",
        "a total",
        "the filler",
        "CTL and state",
        "CTL, and a total or the filler",
        "state, and a total or the filler",
        "CTL and state, and a total or the filler",
    ],
);

/// Counts a batch that was refused by one of the three.
pub fn note(trial: &mut Trial, case: &Case) {
    let batch = case.bytes("batch");
    let control = &batch[batch.len() - 245..];
    let filler = control[45..].iter().any(|&byte| byte != 0x40);
    let parts = (
        refusal_06(control),
        refusal_20(control),
        refusal_21(control),
    );
    let label = match parts {
        (true, false, false) => "CTL",
        (false, true, false) => "state",
        (false, false, _) if filler => "the filler",
        (false, false, _) => "a total",
        (true, true, false) => "CTL and state",
        (true, false, true) => "CTL, and a total or the filler",
        (false, true, true) => "state, and a total or the filler",
        (true, true, true) => "CTL and state, and a total or the filler",
    };
    trial.meet_in(&CONTROL, label, true);
}
