//! One run, of the proved library and of the reference.

use reference::proved_program as proved;
use reference::rng::Rng;
use reference::rules::Rules;
use reference::run::call::{call_by, Answer};
use reference::run::trace::Trace;

use super::framed::Framed;

/// What a call is given.
#[derive(Clone, Debug)]
pub struct Input {
    pub policy: Vec<u8>,
    pub program: Vec<u8>,
    pub memory: Vec<u8>,
    pub fuel: u32,
}

/// Makes the same run with both. They give the same number and units, and leave the same policy and
/// memory: after anything but a finished run those that were given. Gives the reference's answer, and
/// what happened in its run.
pub fn compare(rng: &mut Rng, kind: &str, input: &Input) -> (Answer, Trace) {
    let Input { policy, program, memory, fuel } = input;
    let (expected, trace) = call_by(&Rules::default(), policy, program, memory, *fuel);

    let [mut own_policy, own_program, mut own_memory] =
        [policy, program, memory].map(|bytes| Framed::new(rng, bytes));
    let found =
        proved::run(own_policy.bytes_mut(), own_program.bytes(), own_memory.bytes_mut(), *fuel);
    assert_eq!(found, (expected.number, expected.units), "{kind}: {input:02x?}");
    if expected.number != 0 {
        assert_eq!((&expected.policy, &expected.memory), (policy, memory), "{kind}, reference");
        own_policy.assert_unchanged();
        own_memory.assert_unchanged();
    }
    own_policy.assert_changed_to(&expected.policy);
    own_memory.assert_changed_to(&expected.memory);
    own_program.assert_unchanged();
    (expected, trace)
}
