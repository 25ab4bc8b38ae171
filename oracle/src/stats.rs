//! How often generated lists reach each rule, and how fast they are answered.

use std::collections::BTreeMap;
use std::fmt::Write;
use std::time::{Duration, Instant};

use crate::facts::{self, facts};
use crate::generator;
use crate::set;
use crate::{Answer, Case};

/// Answers `count` lists of a seed and tells what they were like.
pub fn report(count: u64, seed: u64) -> String {
    let mut table = Table::default();
    let mut answering = Duration::ZERO;
    let start = Instant::now();
    for case in generator::cases(seed).take(count as usize) {
        let before = Instant::now();
        let answer = case.answer();
        answering += before.elapsed();
        table.add(&case, &answer);
    }
    let speed = |time: Duration| count as f64 / time.as_secs_f64();
    let mut text = table.text();
    let _ = writeln!(
        text,
        "\n{:.0} lists a second; answering alone, {:.0} a second",
        speed(start.elapsed()),
        speed(answering),
    );
    text
}

#[derive(Default)]
struct Table {
    facts: BTreeMap<&'static str, u64>,
    lists: u64,
    records: u64,
    members: u64,
    set_bytes: u64,
}

impl Table {
    fn add(&mut self, case: &Case, answer: &Answer) {
        self.lists += 1;
        self.records += case.list.records().count() as u64;
        if let Answer::Members(members) = answer {
            self.members += members.all().count() as u64;
            self.set_bytes += set::lay_out(members).len() as u64;
        }
        for fact in facts(case, answer) {
            *self.facts.entry(fact).or_default() += 1;
        }
    }

    fn text(&self) -> String {
        let mut text = String::new();
        let mut row = |name: &str, count| {
            let _ = writeln!(text, "{name:<46}{count:>10}");
        };
        row("lists", self.lists);
        row("records", self.records);
        row("members", self.members);
        row("bytes of member sets", self.set_bytes);
        for fact in facts::EVERY {
            row(fact, self.facts.get(fact).copied().unwrap_or(0));
        }
        text
    }
}
