//! How often each outcome, each n and each kind of sheet and plan came up, and whether that is often enough.

use crate::call::{Call, Outcome};
use crate::compare::{Case, Compared};
use crate::listing::LIST;
use crate::lists::{BOOK, START};
use crate::plan_tally::PlanTally;
use crate::questions;
use crate::sheets;
use std::collections::BTreeMap;

/// An outcome that document 01 allows comes up at least so often in a run of the default length.
const LEAST: u64 = 200;

/// The questions about paths.
const QUESTIONS: [&str; 3] = ["reaches_without", "unrank", "rank"];

pub struct Tally {
    pub rounds: u64,
    pub calls: u64,
    /// The calls that are edits.
    pub edits: u64,
    outcomes: Vec<(Outcome, u64)>,
    recounts: [u64; 65],
    edits_accepted: [u64; 65],
    questions_accepted: [u64; 65],
    plans_read: [u64; 65],
    plans_written: [u64; 65],
    plans: PlanTally,
    /// The cases of each question about paths, and of these the ones held to the list of paths.
    questions: BTreeMap<&'static str, (u64, u64)>,
    /// The grounds of 9 and 12.
    grounds: BTreeMap<&'static str, u64>,
    /// The cases held to the book, and the lists back at a start that is valid and at one that is not.
    by_book: u64,
    back_at_valid: u64,
    back_at_other: u64,
    kinds: BTreeMap<&'static str, u64>,
}

impl Tally {
    pub fn new() -> Tally {
        Tally {
            rounds: 0,
            calls: 0,
            edits: 0,
            outcomes: Outcome::allowed().into_iter().map(|outcome| (outcome, 0)).collect(),
            recounts: [0; 65],
            edits_accepted: [0; 65],
            questions_accepted: [0; 65],
            plans_read: [0; 65],
            plans_written: [0; 65],
            plans: PlanTally::new(),
            questions: QUESTIONS.map(|call| (call, (0, 0))).into(),
            grounds: questions::GROUNDS.map(|ground| (ground, 0)).into(),
            by_book: 0,
            back_at_valid: 0,
            back_at_other: 0,
            kinds: sheets::kinds().map(|kind| (kind, 0)).collect(),
        }
    }

    /// Enters a case, or says that its outcome is not one that document 01 allows.
    pub fn enter(&mut self, case: &Case, compared: &Compared) -> Result<(), String> {
        let outcome = Outcome::of(&case.call, &compared.answer);
        let Some((_, times)) = self.outcomes.iter_mut().find(|(allowed, _)| *allowed == outcome) else {
            return Err(format!("{case}\n  an outcome that document 01 does not allow: {outcome:?}"));
        };
        *times += 1;
        self.calls += compared.calls;
        if !self.plans.enter(case, &compared.answer) {
            *self.kinds.entry(case.kind).or_default() += 1;
        }
        if case.call.is_edit() {
            self.edits += compared.calls;
        }
        if outcome.number == 0 {
            match case.call {
                Call::Recount => self.recounts[case.n] += 1,
                Call::Insert(_) | Call::Delete(_) => self.edits_accepted[case.n] += 1,
                Call::ReadPlan => self.plans_read[case.n] += 1,
                Call::WritePlan => self.plans_written[case.n] += 1,
                _ if QUESTIONS.contains(&outcome.call) => self.questions_accepted[case.n] += 1,
                _ => (),
            }
        }
        if let Some((cases, by_list)) = self.questions.get_mut(outcome.call) {
            *cases += 1;
            *by_list += u64::from(case.known.as_ref().is_some_and(|known| known.by == LIST));
        }
        if let Some(ground) = questions::ground(case.n, &case.call, &case.lent, outcome.number) {
            *self.grounds.entry(ground).or_default() += 1;
        }
        match case.known.as_ref().map(|known| known.by) {
            Some(BOOK) => self.by_book += 1,
            Some(START) if case.kind == sheets::VALID => self.back_at_valid += 1,
            Some(START) => self.back_at_other += 1,
            _ => (),
        }
        Ok(())
    }

    pub fn print(&self) {
        println!("{:<17}{:>8}{:>8}{:>10}", "call", "number", "value", "cases");
        for (Outcome { call, number, said }, times) in &self.outcomes {
            let said = said.map_or(String::new(), |value| value.to_string());
            println!("{call:<17}{number:>8}{said:>8}{times:>10}");
        }
        for (what, times) in self.accepted() {
            let (rarest, times) = (1..=64)
                .map(|n| (n, times[n]))
                .min_by_key(|&(_, times)| times)
                .unwrap_or((0, 0));
            println!("accepted {what} for each n of 1 to 64: at least {times} (n {rarest})");
        }
        let (kind, times) = self.kinds.iter().min_by_key(|(_, times)| **times).unwrap_or((&"", &0));
        println!(
            "cases for each of {} kinds of sheet: at least {times} ({kind})",
            self.kinds.len()
        );
        for (call, (cases, by_list)) in &self.questions {
            println!("{call}: {cases} cases, {by_list} of them held to the list of paths");
        }
        for (ground, times) in &self.grounds {
            println!("refused, {ground}: {times}");
        }
        self.plans.print();
        println!("edits held to the book: {}", self.by_book);
        println!(
            "lists back at their start: {} on valid sheets, {} on others",
            self.back_at_valid, self.back_at_other
        );
    }

    /// What was accepted, for each n.
    fn accepted(&self) -> [(&'static str, &[u64; 65]); 5] {
        [
            ("recounts", &self.recounts),
            ("edits", &self.edits_accepted),
            ("questions about paths", &self.questions_accepted),
            ("plans read", &self.plans_read),
            ("plans written", &self.plans_written),
        ]
    }

    /// Whether everything came up that has to.
    pub fn check(&self) -> Result<(), String> {
        for (outcome, times) in &self.outcomes {
            if *times < LEAST {
                return Err(format!("{outcome:?} came up {times} times, fewer than {LEAST}"));
            }
        }
        for (what, times) in self.accepted() {
            if let Some(n) = (1..=64).find(|&n| times[n] == 0) {
                return Err(format!("of {n} vertices no {what} were accepted"));
            }
        }
        let lists = [
            ("edits held to the book", self.by_book),
            ("lists back at a valid start", self.back_at_valid),
            ("lists back at another start", self.back_at_other),
        ];
        let grounds = self.grounds.iter().map(|(&ground, &times)| (ground, times));
        let by_list = self.questions.iter().map(|(&call, &(_, by_list))| (call, by_list));
        for (what, times) in lists.into_iter().chain(grounds).chain(by_list) {
            if times < LEAST {
                return Err(format!("{what}: {times}, fewer than {LEAST}"));
            }
        }
        if let Some((kind, _)) = self.kinds.iter().find(|(_, &times)| times == 0) {
            return Err(format!("no sheet of this kind came up: {kind}"));
        }
        self.plans.check()
    }
}
