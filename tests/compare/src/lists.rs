//! Lists of calls played at once by the engine and by the independent program.
use crate::lent::GUARDS;
use crate::linked;
use crate::trials::{difference, Agreed, OUTSIDE};
use independent::play::{play, Call, Calls, List, Played, ANSWER};
use independent::tally::Tally;
use independent::{page_lists, scripts};

/// All that differs between what the independent program and the engine left.
pub fn differences(expected: &Played, found: Option<&Played>) -> Vec<String> {
    let Some(found) = found else { return vec![OUTSIDE.into()] };
    let written = (expected.written != found.written)
        .then(|| format!("answer bytes: {} expected, {} found", expected.written, found.written));
    let answers = difference("answers", &expected.answers, &found.answers);
    let call = answers.as_ref().and_then(|_| first_call(expected, found));
    let memory = difference("memory", &expected.memory, &found.memory);
    let ring = difference("ring", &expected.ring, &found.ring);
    [written, answers, call, memory, ring].into_iter().flatten().collect()
}

/// The first answer that differs, as words.
fn first_call(expected: &Played, found: &Played) -> Option<String> {
    let pairs = expected.answers.chunks_exact(ANSWER).zip(found.answers.chunks_exact(ANSWER));
    let (number, (a, b)) = pairs.enumerate().find(|(_, (a, b))| a != b)?;
    let words = |answer: &[u8]| independent::ring::words(answer, 0, ANSWER as u64);
    Some(format!("answer {number}: {:08X?} expected, {:08X?} found", words(a), words(b)))
}

/// The list in words, so that a difference can be looked into.
pub fn described(list: &List) -> Vec<String> {
    let (ring, memory, answers) = (list.ring.len(), list.memory.len(), list.answers.len());
    let (numbers, reset) = (list.numbers, list.reset);
    let mut lines = vec![format!("{numbers:?}, reset {reset}; lent: ring {ring}, memory {memory}, answers {answers}")];
    for (number, call) in Calls(&list.script).enumerate() {
        let call = match call {
            Call::Open { start, length } => format!("open {start} {length}"),
            Call::Submit { client, batch } => format!("submit {client}, {} bytes", batch.len()),
            Call::Run => "run".into(),
            Call::Pending { client } => format!("pending {client}"),
            Call::Begin { client, total } => format!("begin {client} {total}"),
            Call::Piece { client, piece } => format!("piece {client}, {} bytes", piece.len()),
            Call::Cancel { client } => format!("cancel {client}"),
            Call::Close { client } => format!("close {client}"),
        };
        lines.push(format!("answer {}: {call}", number + 1));
    }
    lines
}

/// What a list leaves, if both leave the same.
pub fn agreed(list: &List, guards: usize) -> Agreed<Played> {
    let expected = play(list);
    let found = linked::play(list, guards);
    let differ = differences(&expected, found.as_ref());
    if differ.is_empty() {
        return Ok(expected);
    }
    Err([differ, described(list)].concat().join("\n  "))
}

/// Whether all lists of some name agree.
fn all_agree(lists: impl Iterator<Item = List>, name: &str) -> bool {
    let mut tally = Tally::default();
    let mut count = 0;
    for list in lists {
        match agreed(&list, GUARDS) {
            Ok(played) => tally.add_list(&list, &played),
            Err(differs) => {
                println!("list {count} {name} differs:\n  {differs}");
                return false;
            }
        }
        count += 1;
    }
    tally.print();
    println!("{count} lists {name}: all agree");
    true
}

/// Whether so many lists of a seed agree.
pub fn compare(count: u64, seed: u64) -> bool {
    all_agree((0..count).map(|number| scripts::list(seed, number)), &format!("of seed {seed}"))
}

/// Whether the lists agree that put one surface at every place about another.
pub fn pages() -> bool {
    all_agree(page_lists::lists().into_iter(), "of two surfaces on a page")
}
