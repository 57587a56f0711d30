//! Random pairs of orders (02, 9) played by the engine and by the independent program: in both orders memory is the same at
//! the end, and so are status, fault and place of each client's first batch, of its second, and so on.
use crate::lent::GUARDS;
use crate::linked;
use crate::lists::{agreed, described};
use crate::trials::OUTSIDE;
use independent::orders::{outcome, pair, turns, Outcome};
use independent::tally::Tally;

/// What the engine makes of both orders differs here.
fn changes(first: &Outcome, second: &Outcome) -> Vec<String> {
    let memory = first.memory.iter().zip(&second.memory).position(|(a, b)| a != b);
    let memory = memory.map(|at| format!("the orders leave another byte {at} of memory"));
    let clients = first.completions.iter().zip(&second.completions).enumerate();
    let differing = clients.filter(|(_, (a, b))| a != b);
    let differing = differing.map(|(client, (a, b))| format!("completions of client {client}: {a:X?} and {b:X?}"));
    memory.into_iter().chain(differing).collect()
}

/// Plays both orders. All that differs: from the independent program, or between the two.
fn differ(number: u64, seed: u64, tally: &mut Tally) -> Vec<String> {
    let pair = pair(seed, number);
    let mut outcomes = Vec::new();
    let mut orders = Vec::new();
    for list in &pair {
        match agreed(list, GUARDS) {
            Ok(expected) => tally.add_list(list, &expected),
            Err(differs) => return vec![differs],
        }
        let Some(found) = linked::play(list, GUARDS) else { return vec![OUTSIDE.into()] };
        orders.push(turns(list, &found));
        outcomes.push(outcome(list, &found));
    }
    tally.add("pairs".into(), 1);
    tally.add("pairs that execute clients' batches in two orders".into(), u64::from(orders[0] != orders[1]));
    let changes = changes(&outcomes[0], &outcomes[1]);
    if changes.is_empty() {
        return changes;
    }
    pair.iter().fold(changes, |lines, list| [lines, described(list)].concat())
}

/// Whether so many pairs of a seed agree.
pub fn compare(count: u64, seed: u64) -> bool {
    let mut tally = Tally::default();
    for number in 0..count {
        let differ = differ(number, seed, &mut tally);
        if !differ.is_empty() {
            println!("pair {number} of seed {seed} differs:");
            differ.iter().for_each(|line| println!("  {line}"));
            return false;
        }
    }
    tally.print();
    println!("{count} pairs of orders of seed {seed}: all agree");
    true
}
