//! The printed table, and the worst ratio in it.

use crate::calls::{Input, RUNS};
use crate::measure::{Reading, Timed, Times};

/// What the project holds a row to: how much of the safe one's time the library may take.
pub const RUN_BAR: f64 = 1.25;
pub const CALL_BAR: f64 = 2.0;
pub const SMALLEST_RUN_BAR: f64 = 1.5;
/// How much a unit may cost of another that it is compared with.
pub const GROWTH_BAR: f64 = 1.1;
/// How many native units the arithmetic row's may cost.
pub const NATIVE_BAR: f64 = 6.0;

pub struct Table {
    words: String,
    worst: f64,
    worst_name: String,
}

impl Table {
    pub fn new(words: String) -> Table {
        Table { words, worst: 0.0, worst_name: "no row".into() }
    }

    /// Whether a row of this name is wanted.
    pub fn wants(&self, name: &str) -> bool {
        name.contains(&self.words)
    }

    pub fn head(&self, what: &str) {
        println!(
            "{what:58} {:>12} {:>12} {:>12} {:>13} {:>6} {:>5}      {:>6} {:>6}",
            "library", "safe", "fast", "reference", "/safe", "bar", "/fast", "/ref"
        );
    }

    pub fn head_of_growth(&self) {
        println!("{:58} {:>52} {:>6} {:>5}", "growth of the library", "", "ratio", "bar");
    }

    /// A row of calls that leave their input as it is. All four have to agree.
    pub fn row<T: PartialEq + std::fmt::Debug>(
        &mut self,
        name: &str,
        library: impl Fn() -> T,
        safe: impl Fn() -> T,
        fast: impl Fn() -> T,
        reference: impl Fn() -> T,
    ) {
        if !self.wants(name) {
            return;
        }
        let expected = reference();
        assert_eq!(library(), expected, "{name}");
        assert_eq!(safe(), expected, "{name}");
        assert_eq!(fast(), expected, "{name}");
        let times = Times::of(&mut [
            &mut Reading(library),
            &mut Reading(safe),
            &mut Reading(fast),
            &mut Reading(reference),
        ]);
        self.print(name, &times, CALL_BAR, None);
    }

    /// A row of runs, which end with this number and units.
    pub fn run(&mut self, name: &str, input: &Input, end: (u32, u32), bar: f64) {
        assert_eq!(input.agreed(name), end, "{name}");
        let [mut library, mut safe, mut fast] = RUNS.map(|run| input.timed(run));
        let mut reference = input.timed_reference();
        let times =
            Times::of(&mut [&mut library, &mut safe, &mut fast, &mut reference as &mut dyn Timed]);
        self.print(name, &times, bar, Some(f64::from(end.1)));
    }

    fn print(&mut self, name: &str, times: &Times, bar: f64, units: Option<f64>) {
        let [library, safe, fast, reference] =
            [0, 1, 2, 3].map(|which| times.median(|round| round[which]));
        let [ratio, to_fast, to_reference] =
            [1, 2, 3].map(|which| times.median(|round| round[0] / round[which]));
        let mark = if ratio > bar { " over" } else { "" };
        let by_unit = units.map_or(String::new(), |units| {
            let [library, safe, fast] = [library, safe, fast].map(|time| time / units);
            format!("  {library:.2}, {safe:.2} and {fast:.2} ns a unit")
        });
        println!(
            "{name:58} {library:9.0} ns {safe:9.0} ns {fast:9.0} ns {reference:10.0} ns {ratio:6.2} \
             {bar:5.2}{mark:5} {to_fast:6.2} {to_reference:6.2}{by_unit}"
        );
        if ratio > self.worst {
            self.worst = ratio;
            self.worst_name = name.into();
        }
    }

    /// A row that compares two things of the library, or the library with the machine.
    pub fn against(&self, name: &str, what: &str, ratio: f64, bar: f64) {
        let mark = if ratio > bar { " over" } else { "" };
        println!("{name:58} {what:>52} {ratio:6.2} {bar:5.2}{mark}");
    }

    /// The last line; gives the ratio.
    pub fn print_worst(&self) -> f64 {
        println!("worst ratio library/safe {:.2}: {}", self.worst, self.worst_name);
        self.worst
    }
}
