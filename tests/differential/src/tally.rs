//! What was tried, and how it was answered.

use std::collections::BTreeMap;
use std::ops::RangeInclusive;
use std::time::Duration;

use crate::generate::Kind;
use crate::labels::{FOR_A_MARK, NEEDING, TAKEN};
use crate::standing::STANDINGS;

#[derive(Clone, Copy, PartialEq, Eq, PartialOrd, Ord, Debug)]
pub enum Call {
    Read,
    Masks,
    Judge,
    Transfers,
    Picture,
    PictureSize,
    Bill,
    Standing,
    Census,
    Draw,
    List,
}

impl Call {
    const ALL: [Call; 11] = [
        Call::Read,
        Call::Masks,
        Call::Judge,
        Call::Transfers,
        Call::Picture,
        Call::PictureSize,
        Call::Bill,
        Call::Standing,
        Call::Census,
        Call::Draw,
        Call::List,
    ];

    /// The numbers that the call can refuse with.
    fn numbers(self) -> impl Iterator<Item = u8> {
        let (range, more): (RangeInclusive<u8>, _) = match self {
            Call::Read | Call::Masks | Call::Standing => (1..=12, None),
            Call::Census | Call::Draw => (1..=12, None),
            Call::Judge | Call::PictureSize | Call::Bill => (1..=15, Some(17)),
            Call::Transfers | Call::Picture => (1..=17, None),
            Call::List => (1..=12, Some(16)),
        };
        range.chain(more)
    }
}

/// Options with another row than if copies were stored free, and those of them at equal cost. They
/// are counted one by one, and some must be seen.
pub const TURNED: &str = "rows turned by copies";
pub const TURNED_AT_EQUAL_COST: &str = "rows turned by copies at equal cost";

/// What Bill answers for a placement that is no row; some must be seen.
pub const NO_ROW: &str = "no row";

#[derive(Default)]
pub struct Tally {
    kinds: BTreeMap<Kind, u64>,
    traits: BTreeMap<&'static str, u64>,
    answers: BTreeMap<(Call, &'static str), u64>,
    refusals: BTreeMap<(Call, u8), u64>,
    large: u64,
    pub calls: u64,
}

impl Tally {
    pub fn input(&mut self, kind: Kind) {
        *self.kinds.entry(kind).or_default() += 1;
    }

    /// How many descriptions with many candidates there were before this one.
    pub fn one_more_large(&mut self) -> u64 {
        self.large += 1;
        self.large - 1
    }

    /// Something that accepted descriptions should show now and then.
    pub fn shown(&mut self, name: &'static str) {
        self.shown_times(name, 1);
    }

    /// Something that one description may show several times, or not at all.
    pub fn shown_times(&mut self, name: &'static str, times: u64) {
        *self.traits.entry(name).or_default() += times;
    }

    pub fn answered(&mut self, call: Call, answer: &'static str) {
        self.calls += 1;
        *self.answers.entry((call, answer)).or_default() += 1;
    }

    pub fn refused(&mut self, call: Call, number: u8) {
        self.calls += 1;
        *self.refusals.entry((call, number)).or_default() += 1;
    }

    fn refusals_of(&self, call: Call, number: u8) -> u64 {
        self.refusals.get(&(call, number)).copied().unwrap_or(0)
    }

    /// What should have been seen and was not: refusals, the answers of Standing, bills of
    /// placements that are no rows, rows that the price of copies decides, refusals and options
    /// that a mark decides.
    pub fn missing(&self) -> Vec<String> {
        let due = Call::ALL
            .into_iter()
            .flat_map(|call| call.numbers().map(move |number| (call, number)));
        let refusals = due
            .filter(|&(call, number)| self.refusals_of(call, number) == 0)
            .map(|(call, number)| format!("{call:?} {number}"));
        let answers = STANDINGS
            .map(|name| (Call::Standing, name))
            .into_iter()
            .chain([(Call::Bill, NO_ROW)])
            .filter(|answer| !self.answers.contains_key(answer))
            .map(|(call, name)| format!("{call:?} {name}"));
        let for_a_mark = FOR_A_MARK.into_iter().map(|(_, name)| name);
        let traits = [TURNED, TURNED_AT_EQUAL_COST, TAKEN, NEEDING]
            .into_iter()
            .chain(for_a_mark)
            .filter(|name| self.traits.get(name).is_none_or(|&times| times == 0))
            .map(str::to_string);
        refusals.chain(answers).chain(traits).collect()
    }

    pub fn print(&self, seed: u64, taken: Duration) {
        let (calls, seconds) = (self.calls, taken.as_secs_f64());
        let inputs: u64 = self.kinds.values().sum();
        let speed = calls as f64 / seconds;
        println!("seed {seed}: {inputs} inputs, {calls} calls, {seconds:.1} s, {speed:.0} calls/s");
        println!(
            "inputs: {}",
            joined(&self.kinds, |kind| format!("{kind:?}"))
        );
        println!("shown: {}", joined(&self.traits, |name| name.to_string()));
        println!("\n| Call | Answers | Refusals, by number |\n|---|---|---|");
        for call in Call::ALL {
            let own = self.answers.iter().filter(|((c, _), _)| *c == call);
            let answers = own.map(|((_, answer), count)| (*answer, *count)).collect();
            let answers = joined(&answers, |answer| answer.to_string());
            let numbers = (1..=17).map(|n| (n, self.refusals_of(call, n)));
            let refusals = numbers.filter(|(_, count)| *count > 0).collect();
            let refusals = joined(&refusals, |number: &u8| number.to_string());
            println!("| {call:?} | {answers} | {refusals} |");
        }
        let all = (1..=17).map(|n| (n, Call::ALL.map(|c| self.refusals_of(c, n)).iter().sum()));
        println!(
            "| all | | {} |",
            joined(&all.collect(), |number: &u8| number.to_string())
        );
    }
}

fn joined<K>(counts: &BTreeMap<K, u64>, name: impl Fn(&K) -> String) -> String {
    let parts = counts
        .iter()
        .map(|(key, count)| format!("{}: {count}", name(key)));
    parts.collect::<Vec<_>>().join(", ")
}
