//! The quotient of both versions, of both implementations: worked out by hand, in each place where it may
//! stand, for all pairs of values at corners, and for random ones.

mod common {
    pub mod compared;
    pub mod framed;
    pub mod seeds;
}

use common::compared::{compare, Input};
use common::seeds::with_both_seeds;
use reference::encode::encode;
use reference::generate_memory::CORNERS;
use reference::program::{Expression, Operator, Program, Statement, Version, VERSIONS};
use reference::rng::Rng;
use reference::run::call::{bytes, values};
use reference::shapes::*;
use reference::worked::E;

const LOWEST: i32 = i32::MIN;
const HIGHEST: i32 = i32::MAX;

/// How many random pairs, with each seed.
const RANDOM: usize = 20_000;

/// What a run of both leaves: its units, and the memory.
fn run_on(version: Version, statement: Statement, memory: &[i32]) -> (u32, Vec<i32>) {
    let mut program = Program { version, labels: vec![OPEN; memory.len()], statement };
    let program = encode(&mut program).bytes;
    let input = Input { policy: E.to_vec(), program, memory: bytes(memory), fuel: 1_000 };
    let answer = compare(&mut Rng::new(1), "quotient", &input).0;
    assert_eq!(answer.number, 0, "{version:?} {input:02x?}");
    (answer.units, values(&answer.memory))
}

/// The value that an expression gets in this version, where v0 and v1 are these.
fn value_of(version: Version, expression: Expression, [v0, v1]: [i32; 2]) -> i32 {
    let (units, memory) = run_on(version, assign(2, expression), &[v0, v1, 99]);
    assert_eq!((units, &memory[..2]), (1, &[v0, v1][..]));
    memory[2]
}

/// In version 1 an expression has the first of these values, in version 2 the second.
fn assert_values(expression: Expression, memory: [i32; 2], expected: [i32; 2]) {
    for (version, expected) in VERSIONS.into_iter().zip(expected) {
        let found = value_of(version, expression.clone(), memory);
        assert_eq!(found, expected, "{version:?} {expression:?} {memory:?}");
    }
}

fn by(dividend: Expression, divisor: Expression) -> Expression {
    binary(Operator::Quotient, dividend, divisor)
}

fn plus(left: Expression, right: Expression) -> Expression {
    binary(Operator::Sum, left, right)
}

/// Half of 7, which is no whole number: 3 in version 1, 4 in version 2.
fn half_of_seven() -> Expression {
    by(constant(7), constant(2))
}

/// Both operands as constants and as v0 and v1.
fn operands(left: i32, right: i32) -> [[Expression; 2]; 4] {
    [
        [constant(left), constant(right)],
        [constant(left), variable(1)],
        [variable(0), constant(right)],
        [variable(0), variable(1)],
    ]
}

/// Dividend, divisor, and the quotients of version 1 and version 2.
const WORKED: [[i32; 4]; 42] = [
    [7, 2, 3, 4],
    [-7, 2, -3, -4],
    [7, -2, -3, -4],
    [-7, -2, 3, 4],
    // Less than one, and less than a half.
    [5, 10, 0, 1],
    [-5, 10, 0, -1],
    [5, -10, 0, -1],
    [4, 10, 0, 0],
    [-4, 10, 0, 0],
    [6, 10, 0, 1],
    [1, 2, 0, 1],
    [-1, 2, 0, -1],
    [-1, 3, 0, 0],
    [1, 3, 0, 0],
    [2, 3, 0, 1],
    [-2, 3, 0, -1],
    [7, 3, 2, 2],
    [8, 3, 2, 3],
    [-8, 3, -2, -3],
    [8, -3, -2, -3],
    // Whole.
    [0, 5, 0, 0],
    [6, 2, 3, 3],
    [-6, 2, -3, -3],
    [-6, -1, 6, 6],
    // By 0 it is 0.
    [7, 0, 0, 0],
    [0, 0, 0, 0],
    [LOWEST, 0, 0, 0],
    // At the ends: the lowest is -2147483648, the highest 2147483647.
    [LOWEST, -1, LOWEST, LOWEST],
    [LOWEST, 1, LOWEST, LOWEST],
    [HIGHEST, -1, -2147483647, -2147483647],
    [LOWEST, 2, -1073741824, -1073741824],
    [HIGHEST, 2, 1073741823, 1073741824],
    [HIGHEST, -2, -1073741823, -1073741824],
    // A third of the lowest leaves 2 over, a third of the highest 1.
    [LOWEST, 3, -715827882, -715827883],
    [HIGHEST, 3, 715827882, 715827882],
    // 1073741824 is half of the lowest, and a little more than half of the highest.
    [1073741824, LOWEST, 0, -1],
    [1073741823, LOWEST, 0, 0],
    [-1073741824, LOWEST, 0, 1],
    [1073741824, HIGHEST, 0, 1],
    [1073741823, HIGHEST, 0, 0],
    [HIGHEST, LOWEST, 0, -1],
    [LOWEST, HIGHEST, -1, -1],
];

#[test]
fn worked_out_by_hand() {
    for [left, right, cut, nearest] in WORKED {
        // Of constants and of variables, which an implementation may well treat apart.
        for [dividend, divisor] in operands(left, right) {
            assert_values(by(dividend, divisor), [left, right], [cut, nearest]);
        }
    }
}

/// As the operand of each operator, on the left and on the right, beside a constant and a variable.
#[test]
fn inside_another_operator() {
    use Operator::{Difference, Equal, Less, Product, Quotient, Sum};
    for (operator, beside, on_the_left, on_the_right) in [
        (Sum, 10, [13, 14], [13, 14]),
        (Difference, 10, [-7, -6], [7, 6]),
        (Product, 10, [30, 40], [30, 40]),
        // 3 by 8 and 4 by 8; 8 by 3 and 8 by 4.
        (Quotient, 8, [0, 1], [2, 2]),
        (Less, 4, [1, 0], [0, 0]),
        (Equal, 4, [0, 1], [0, 1]),
    ] {
        for [seven, two] in operands(7, 2) {
            let inner = by(seven, two);
            let memory = [7, 2];
            let outer = binary(operator, inner.clone(), constant(beside));
            assert_values(outer, memory, on_the_left);
            assert_values(binary(operator, constant(beside), inner), memory, on_the_right);
        }
        let inner = by(constant(7), constant(2));
        let beside_variable = binary(operator, inner.clone(), variable(0));
        assert_values(beside_variable, [beside, 0], on_the_left);
        assert_values(binary(operator, variable(0), inner), [beside, 0], on_the_right);
    }
}

/// Four quotients under sums, a difference and a product: (3 + 2) × (4 − 0), and (4 + 3) × (5 − 1).
#[test]
fn in_a_deep_expression() {
    let half = |dividend| by(constant(dividend), variable(1));
    let sum = plus(half(7), half(5));
    let difference = binary(Operator::Difference, half(9), half(1));
    assert_values(binary(Operator::Product, sum, difference), [0, 2], [20, 28]);
}

/// So many quotients in a line, each the dividend of the next or its divisor.
#[test]
fn in_lines_of_quotients() {
    let halved = |dividend, times| {
        (0..times).fold(dividend, |dividend: Expression, _| by(dividend, constant(2)))
    };
    // Cut, 2147483647 by 2 to the fifteenth is 65535. To the nearest, the first half is 2 to the
    // thirtieth, and every other is whole.
    assert_values(halved(variable(0), 15), [HIGHEST, 0], [65535, 65536]);
    assert_values(halved(variable(0), 15), [-HIGHEST, 0], [-65535, -65536]);
    // 5, 2, 1, 0 and 5, 3, 2, 1: to the nearest, 1 by 2 is 1 for ever.
    assert_values(halved(constant(5), 3), [0, 0], [0, 1]);
    assert_values(halved(constant(5), 15), [0, 0], [0, 1]);
    // 3 by 2, and 3 by that, and so on. Cut, it goes 1, 3, 1, 3; to the nearest it is always 2.
    let nested = |times| (0..times).fold(constant(2), |divisor, _| by(variable(0), divisor));
    assert_values(nested(1), [3, 0], [1, 2]);
    assert_values(nested(14), [3, 0], [3, 2]);
    assert_values(nested(15), [3, 0], [1, 2]);
}

/// One quotient at each depth of a line of sums, to the left and to the right, with the deepest at 15
/// operators; and as the outermost of so many.
#[test]
fn in_lines_of_sums() {
    let line = |value, sums, to_the_left| {
        (0..sums).fold(value, |value: Expression, _| match to_the_left {
            true => plus(value, constant(1)),
            false => plus(variable(0), value),
        })
    };
    for to_the_left in [true, false] {
        for sums in 0..15 {
            let whole = line(half_of_seven(), sums, to_the_left);
            assert_values(whole, [1, 0], [3 + sums, 4 + sums]);
        }
        // 14 sums of ones are 15: half of it is 7 and a half, and 8 by it is more than a half.
        let fifteen = || line(constant(1), 14, to_the_left);
        assert_values(by(fifteen(), constant(2)), [1, 0], [7, 8]);
        assert_values(by(constant(8), fifteen()), [1, 0], [0, 1]);
    }
}

/// If a quotient is not 0: 1 by 2 is 0 or 1; and compared, where 7 by 2 is 3 or 4.
#[test]
fn in_the_test_of_an_if() {
    let less = binary(Operator::Less, half_of_seven(), constant(4));
    let equal = binary(Operator::Equal, constant(4), half_of_seven());
    for (condition, [one, two]) in [
        (by(constant(1), constant(2)), [20, 10]),
        (by(variable(0), constant(2)), [20, 10]),
        (by(variable(0), variable(1)), [20, 10]),
        (plus(by(variable(0), variable(1)), constant(-1)), [10, 20]),
        (less, [10, 20]),
        (equal, [20, 10]),
    ] {
        let branches = || [assign(2, constant(10)), assign(2, constant(20))];
        for (version, expected) in VERSIONS.into_iter().zip([one, two]) {
            let [first, second] = branches();
            let statement = if_else(condition.clone(), first, second);
            let found = run_on(version, statement, &[1, 2, 0]);
            assert_eq!(found, (2, vec![1, 2, expected]), "{version:?} {condition:?}");
        }
    }
}

/// While a quotient is not 0, v0 is counted down.
#[test]
fn in_the_test_of_a_while() {
    let counted = || assign(0, binary(Operator::Difference, variable(0), constant(1)));
    let run_down = |version, condition: Expression, from| {
        run_on(version, while_true(condition, counted()), &[from, 4])
    };
    for divisor in [constant(4), variable(1)] {
        let quotient = || by(variable(0), divisor.clone());
        // Cut, 5 and 4 by 4 are 1, and 3 by 4 is 0: three tests and two assignments.
        assert_eq!(run_down(Version::One, quotient(), 5), (5, vec![3, 4]));
        // To the nearest 3 and 2 by 4 are 1 too, and 1 by 4 is 0: five tests and four assignments.
        assert_eq!(run_down(Version::Two, quotient(), 5), (9, vec![1, 4]));
        let positive = || binary(Operator::Less, constant(0), quotient());
        assert_eq!(run_down(Version::One, positive(), 5), (5, vec![3, 4]));
        assert_eq!(run_down(Version::Two, positive(), 5), (9, vec![1, 4]));
    }
}

/// A quotient assigned to the variable that it is worked out from, until it is less than 10.
#[test]
fn in_a_loop() {
    let test = binary(Operator::Less, constant(9), variable(0));
    let statement = while_true(test, assign(0, by(variable(0), constant(3))));
    // 333, 111, 37, 12, 4 either way, since what is dropped is a third at most.
    for version in VERSIONS {
        assert_eq!(run_on(version, statement.clone(), &[1000]), (11, vec![4]));
    }
    // 14 and 4; to the nearest 15 and 5.
    assert_eq!(run_on(Version::One, statement.clone(), &[44]), (5, vec![4]));
    assert_eq!(run_on(Version::Two, statement, &[44]), (5, vec![5]));
}

/// Half an odd number of the divisor goes away from zero in version 2, towards it in version 1.
#[test]
fn exact_halves() {
    for odd in [1, 3, 5, 7, 99, 12345, 1_073_741_823] {
        for half_divisor in [1, 2, 3, 5, 20, 1000, 65536, 1_073_741_823] {
            let Some(dividend) = i32::checked_mul(odd, half_divisor) else { continue };
            let Some(divisor) = half_divisor.checked_mul(2) else { continue };
            let (cut, nearest) = ((odd - 1) / 2, (odd + 1) / 2);
            let quotient = || by(variable(0), variable(1));
            assert_values(quotient(), [dividend, divisor], [cut, nearest]);
            assert_values(quotient(), [-dividend, divisor], [-cut, -nearest]);
            assert_values(quotient(), [dividend, -divisor], [-cut, -nearest]);
            assert_values(quotient(), [-dividend, -divisor], [cut, nearest]);
        }
    }
    // The lowest is the only divisor whose size is no value.
    assert_values(by(variable(0), variable(1)), [1 << 30, LOWEST], [0, -1]);
    assert_values(by(variable(0), variable(1)), [-1 << 30, LOWEST], [0, 1]);
}

/// By what the document says of a quotient and not by how one is found: whether `found` is it.
fn is_quotient(version: Version, left: i32, right: i32, found: i32) -> bool {
    if right == 0 {
        return found == 0;
    }
    if (left, right) == (LOWEST, -1) {
        return found == LOWEST;
    }
    let [left, right, found] = [left, right, found].map(i64::from);
    // What the quotient times the divisor lacks of the dividend, or has too much, by size.
    let (product, missed) = ((found * right).abs(), (left - found * right).abs());
    let goes_beyond = product > left.abs();
    match version {
        Version::One => missed < right.abs() && !goes_beyond,
        Version::Two if 2 * missed == right.abs() => goes_beyond,
        Version::Two => 2 * missed < right.abs(),
    }
}

/// One program for each version, run for many pairs.
struct TwoVariables([Vec<u8>; 2]);

impl TwoVariables {
    fn new() -> TwoVariables {
        let statement = assign(2, by(variable(0), variable(1)));
        TwoVariables(VERSIONS.map(|version| {
            let statement = statement.clone();
            encode(&mut Program { version, labels: vec![OPEN; 3], statement }).bytes
        }))
    }

    /// The quotients of version 1 and 2, of both; by the document they are right.
    fn quotients(&self, rng: &mut Rng, left: i32, right: i32) -> [i32; 2] {
        let found = self.0.each_ref().map(|program| {
            let memory = bytes(&[left, right, 99]);
            let program = program.clone();
            let input = Input { policy: E.to_vec(), program, memory, fuel: 1 };
            let answer = compare(rng, "two variables", &input).0;
            assert_eq!((answer.number, answer.units), (0, 1), "{left} by {right}");
            values(&answer.memory)[2]
        });
        for (version, found) in VERSIONS.into_iter().zip(found) {
            let is_right = is_quotient(version, left, right, found);
            assert!(is_right, "{version:?}: {left} by {right} gave {found}");
        }
        found
    }
}

#[test]
fn corners_by_each_other() {
    let (program, mut rng) = (TwoVariables::new(), Rng::new(1));
    let mut told_apart = 0;
    for left in CORNERS {
        for right in CORNERS {
            let [cut, nearest] = program.quotients(&mut rng, left, right);
            told_apart += usize::from(cut != nearest);
        }
    }
    assert!(told_apart > CORNERS.len() * CORNERS.len() / 8, "{told_apart}");
}

#[test]
fn random_values_by_each_other() {
    for told_apart in with_both_seeds(|mut rng| {
        let program = TwoVariables::new();
        let mut told_apart = 0;
        for _ in 0..RANDOM {
            let (left, right) = (of_any_size(&mut rng), of_any_size(&mut rng));
            // Around a half of the divisor, or some times it and a half.
            let near = (i64::from(right) * (2 * rng.below(9) as i64 - 9) / 2) as i32;
            let near = near.wrapping_add(rng.below(3) as i32 - 1);
            for dividend in [left, near] {
                let [cut, nearest] = program.quotients(&mut rng, dividend, right);
                told_apart += usize::from(cut != nearest);
            }
        }
        told_apart
    }) {
        println!("{told_apart} of {} quotients differ by the version", 2 * RANDOM);
        assert!(told_apart > RANDOM / 2, "{told_apart}");
    }
}

/// Values of few bits as often as of many.
fn of_any_size(rng: &mut Rng) -> i32 {
    rng.word() as i32 >> rng.below(32)
}
