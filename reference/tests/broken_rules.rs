//! That the tests of runs can fail: with one rule broken, by a switch of `src/rules.rs`, the search for
//! leaks finds one, though it finds none by document 01's rules; and each mistake that the document
//! names gives other outcomes than the library. With a fixed seed and with a fresh one, which is
//! printed; `RX_SEED` gives one again.

mod common {
    pub mod compared;
    pub mod framed;
    pub mod seeds;
}

use common::compared::{compare, Input};
use common::seeds::with_both_seeds;
use reference::encode::encode;
use reference::generate::encode as encode_policy;
use reference::generate_memory::memory;
use reference::generate_program::live;
use reference::generate_tiny::{tiny, Taste, TASTES};
use reference::policy::Side;
use reference::rng::Rng;
use reference::rules::Rules;
use reference::run::call::call_by;
use reference::search::{search, FUEL};
use reference::two_runs::leak;

/// Far more programs than any search takes; the longest take some 100,000.
const MOST_PROGRAMS: usize = 5_000_000;
/// How many that are without a leak, for each taste.
const UNBROKEN_PROGRAMS: usize = 40_000;

/// Rules with one switch on, by its name.
type Broken = (&'static str, Rules);

/// Every switch without which demand 3 fails, and to whose taste the programs are.
fn leaking() -> Vec<(Broken, Taste)> {
    use Side::{Reading, Trust};
    use Taste::{Any, Chain, TwoClasses};
    let by = Rules::default();
    vec![
        (("members judged by viewers", Rules { members_on: Some(Reading), ..by }), Any),
        (("members judged by trusters", Rules { members_on: Some(Trust), ..by }), Any),
        (("taken roles judged by viewers", Rules { taken_on: Some(Reading), ..by }), TwoClasses),
        (("taken roles judged by trusters", Rules { taken_on: Some(Trust), ..by }), TwoClasses),
        (("known in else", Rules { known_in_else: true, ..by }), Any),
        (("context dropped", Rules { context_dropped: true, ..by }), Any),
        (("expression dropped", Rules { expression_dropped: true, ..by }), Any),
        (("guard not joined", Rules { guard_not_joined: true, ..by }), Any),
        (("query not joined", Rules { query_not_joined: true, ..by }), Any),
        (("query's first atom", Rules { query_first_atom: true, ..by }), Any),
        (("context dropped at update", Rules { context_dropped_at_update: true, ..by }), Any),
        (("listed left out", Rules { listed_left_out: true, ..by }), TwoClasses),
        (("roles left out", Rules { roles_left_out: true, ..by }), Any),
        (("reading unchecked", Rules { unchecked: Some(Reading), ..by }), Any),
        (("trust unchecked", Rules { unchecked: Some(Trust), ..by }), Any),
        (("role below viewers", Rules { role_below_viewers: true, ..by }), Any),
        (("inclusion unreversed", Rules { inclusion_unreversed: true, ..by }), Any),
        (("query unreversed", Rules { query_unreversed: true, ..by }), Any),
        (("grants unchecked", Rules { grants_unchecked: true, ..by }), TwoClasses),
        (("unlisted allowed", Rules { unlisted_allowed: true, ..by }), Chain),
        (("nesting allowed", Rules { nesting_allowed: true, ..by }), Chain),
        (("no rollback", Rules { no_rollback: true, ..by }), Chain),
        (("compared with start", Rules { compared_with_start: true, ..by }), Chain),
    ]
}

/// The mistakes that document 01 names.
fn mistakes() -> Vec<Broken> {
    let by = Rules::default();
    vec![
        ("policy undone on rollback", Rules { policy_undone: true, ..by }),
        ("compared with start", Rules { compared_with_start: true, ..by }),
        ("inclusion unreversed, in the run", Rules { query_unreversed: true, ..by }),
        ("inclusion unreversed, in the order", Rules { inclusion_unreversed: true, ..by }),
        ("known in else", Rules { known_in_else: true, ..by }),
        ("held to its own roles only", Rules { own_roles_only: true, ..by }),
    ]
}

/// Whether each switch is on; one more does not compile before it is named here, and then fails
/// until it is searched for.
fn switches(rules: &Rules) -> [bool; 22] {
    let Rules {
        members_on,
        taken_on,
        known_in_else,
        context_dropped,
        expression_dropped,
        guard_not_joined,
        query_not_joined,
        query_first_atom,
        context_dropped_at_update,
        listed_left_out,
        roles_left_out,
        own_roles_only,
        unchecked,
        role_below_viewers,
        inclusion_unreversed,
        query_unreversed,
        grants_unchecked,
        unlisted_allowed,
        nesting_allowed,
        no_rollback,
        compared_with_start,
        policy_undone,
    } = *rules;
    [
        members_on.is_some(),
        taken_on.is_some(),
        known_in_else,
        context_dropped,
        expression_dropped,
        guard_not_joined,
        query_not_joined,
        query_first_atom,
        context_dropped_at_update,
        listed_left_out,
        roles_left_out,
        own_roles_only,
        unchecked.is_some(),
        role_below_viewers,
        inclusion_unreversed,
        query_unreversed,
        grants_unchecked,
        unlisted_allowed,
        nesting_allowed,
        no_rollback,
        compared_with_start,
        policy_undone,
    ]
}

#[test]
fn every_switch_is_tried() {
    let leaking = leaking().into_iter().map(|((_, rules), _)| rules);
    let all: Vec<Rules> = leaking.chain(mistakes().into_iter().map(|(_, rules)| rules)).collect();
    for rules in &all {
        assert_eq!(switches(rules).into_iter().filter(|on| *on).count(), 1, "{rules:?}");
    }
    for switch in 0..switches(&Rules::default()).len() {
        assert!(all.iter().any(|rules| switches(rules)[switch]), "switch {switch}");
    }
}

#[test]
fn search_finds_a_leak_for_each_broken_rule() {
    with_both_seeds(|mut rng| {
        for ((name, broken), taste) in leaking() {
            let found = search(&mut rng, &broken, taste, MOST_PROGRAMS);
            let (pair, observer, programs) = found.unwrap_or_else(|| panic!("{name}: no leak"));
            println!("{name}: {programs} programs");
            assert_eq!(leak(&broken, &pair, observer, FUEL), Ok(()), "{name}");
            let unbroken = leak(&Rules::default(), &pair, observer, FUEL);
            assert!(unbroken.is_err(), "{name}: {observer:?} {pair:?}");
        }
    });
}

#[test]
fn search_finds_no_leak_by_the_documents_rules() {
    with_both_seeds(|mut rng| {
        for taste in TASTES {
            let found = search(&mut rng, &Rules::default(), taste, UNBROKEN_PROGRAMS);
            assert!(found.is_none(), "{found:?}");
        }
    });
}

/// How many inputs are tried for each mistake, and how many of them have another outcome at least.
const INPUTS: usize = 6_000;
const LEAST_OTHER_OUTCOMES: usize = 30;

#[test]
fn each_mistake_has_other_outcomes() {
    with_both_seeds(|mut rng| {
        for (name, broken) in mistakes() {
            let other = (0..INPUTS).filter(|_| outcome_differs(&mut rng, &broken)).count();
            println!("{name}: {other} of {INPUTS}");
            assert!(other >= LEAST_OTHER_OUTCOMES, "{name}: {other} of {INPUTS}");
        }
    });
}

/// Whether the reference with a rule broken gives a next input another number, other units, or another
/// policy or memory than the library.
fn outcome_differs(rng: &mut Rng, broken: &Rules) -> bool {
    let case = match rng.below(4) {
        0 => live(rng),
        _ => {
            let taste = *rng.pick(&TASTES);
            let Some(case) = tiny(rng, broken, taste) else { return false };
            case
        }
    };
    let program = encode(&mut case.program.clone()).bytes;
    let memory = memory(rng, case.program.labels.len());
    let input = Input { policy: encode_policy(&case.policy), program, memory, fuel: FUEL };
    let (answer, _) = compare(rng, "mistake", &input);
    let Input { policy, program, memory, fuel } = input;
    call_by(broken, &policy, &program, &memory, fuel).0 != answer
}
