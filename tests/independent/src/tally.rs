//! What came in many lists: which refusals, faults, answers and pairs of surfaces, and how often.
use crate::pairs;
use crate::play::{Call, Calls, List, Played, ANSWER};
use crate::registers::Task;
use crate::words::read_le32;
use std::collections::BTreeMap;

#[derive(Default)]
pub struct Tally(BTreeMap<String, u64>);

impl Tally {
    pub fn add(&mut self, what: String, times: u64) {
        *self.0.entry(what).or_default() += times;
    }

    /// Counts the answers of a list.
    pub fn add_list(&mut self, list: &List, played: &Played) {
        self.add("lists".into(), 1);
        self.add("accepted batches in two parts".into(), played.wraps as u64);
        if played.written == 0 {
            self.add("lists without room for an answer".into(), 1);
            return;
        }
        self.add_answer("set up", &played.answers[..ANSWER]);
        let answers = played.answers[..played.written].chunks(ANSWER).skip(1);
        let mut calls = Calls(&list.script);
        for answer in answers {
            let call = calls.next().expect("a call of each answer");
            self.add_answer(name(&call), answer);
        }
        let unplayed = calls.count() as u64;
        self.add("calls not played".into(), unplayed);
        self.add_pairs(&played.asked);
    }

    /// Counts the pairs of surfaces that rule 28 was asked about.
    pub fn add_pairs(&mut self, tasks: &[Task]) {
        tasks.iter().flat_map(pairs::of_task).for_each(|kind| self.add(kind, 1));
    }

    fn add_answer(&mut self, call: &str, answer: &[u8]) {
        let word = |at: usize| read_le32(answer, 4 * at).expect("a whole answer");
        let what = match (word(0), call, word(4)) {
            (0, "run", 0) => "run: faultless".into(),
            (0, "run", fault) => format!("run: fault {fault}"),
            (0, ..) => format!("{call}: done"),
            (number, ..) => format!("{call}: refusal {number:2}"),
        };
        if (word(0), call) == (0, "run") {
            let drawn = if word(4) == 0 { "tasks drawn" } else { "tasks drawn before a fault" };
            self.add(drawn.into(), u64::from(word(3) >> 16));
        }
        self.add(what, 1);
    }

    pub fn print(&self) {
        self.0.iter().for_each(|(what, times)| println!("{times:>12}  {what}"));
    }
}

fn name(call: &Call) -> &'static str {
    match call {
        Call::Open { .. } => "open",
        Call::Submit { .. } => "submit",
        Call::Run => "run",
        Call::Pending { .. } => "pending",
        Call::Begin { .. } => "begin",
        Call::Piece { .. } => "piece",
        Call::Cancel { .. } => "cancel",
        Call::Close { .. } => "close",
    }
}
