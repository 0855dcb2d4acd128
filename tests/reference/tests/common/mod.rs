//! What several tests need.

use reference::machine::{Answer, Machine, Step};

/// The refusal of a call; the machine must stay as it was.
pub fn refusal(machine: &mut Machine, step: Step) -> Option<u32> {
    let before = machine.clone();
    match machine.call(&step) {
        Answer::Refused(number) => {
            assert!(*machine == before, "{step:?} is refused with {number} and changes something");
            Some(number)
        }
        _ => None,
    }
}
