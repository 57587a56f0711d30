//! The tables of the manual (docs/REGISTERS.md) and of the header for C, read as the lines of `tables`.
use crate::tables::{blend_line, fault_line, refusal_line, register_line};

/// The calls in the order in which `tables` has them.
const CALLS: [&str; 12] =
    ["set up", "open", "submit", "begin", "piece", "cancel", "run", "pending", "close", "encode", "encode shaded", "encode tint"];

/// A number as the documents have it: decimal, or hex digits after 0x.
fn number(word: &str) -> Option<u32> {
    match word.strip_prefix("0x") {
        Some(digits) => u32::from_str_radix(digits, 16).ok(),
        None => word.parse().ok(),
    }
}

/// A text without what stands in brackets.
fn without_brackets(text: &str) -> String {
    let mut depth = 0;
    let outside = |letter: &char| {
        let was = depth;
        depth += i32::from(*letter == '(') - i32::from(*letter == ')');
        was == 0 && depth == 0
    };
    text.chars().filter(outside).collect()
}

/// The bits that a list such as "31:24 alpha, 7 flip" names; "all bits" are all.
fn bits(text: &str) -> u32 {
    if text.trim().starts_with("all bits") {
        return u32::MAX;
    }
    let plain = without_brackets(text);
    let words = plain.split(',').filter_map(|part| part.split_whitespace().next());
    words.filter_map(field).fold(0, |all, field| all | field)
}

/// The bits from high to low of "high:low", or one bit.
fn field(word: &str) -> Option<u32> {
    let (high, low) = word.split_once(':').unwrap_or((word, word));
    let (high, low): (u32, u32) = (high.parse().ok()?, low.parse().ok()?);
    Some((low..=high).map(|bit| 1 << bit).sum())
}

/// What was read: of registers offset, bits and reset values; of refusals number and calls.
#[derive(Default)]
struct Tables {
    registers: Vec<(u32, u32, [u32; 2])>,
    blends: Vec<String>,
    faults: Vec<String>,
    refusals: Vec<(u32, String)>,
}

impl Tables {
    fn lines(mut self) -> Vec<String> {
        self.registers.sort_unstable();
        let registers = self.registers.iter().map(|(offset, bits, resets)| register_line(*offset, *bits, *resets));
        let refusals = CALLS.iter().map(|call| {
            let of_call = self.refusals.iter().filter(|(_, calls)| calls.split(", ").any(|other| other == *call));
            refusal_line(call, &of_call.map(|(number, _)| *number).collect::<Vec<u32>>())
        });
        registers.chain(self.blends.iter().cloned()).chain(self.faults.iter().cloned()).chain(refusals).collect()
    }
}

/// The manual: tables in Markdown, each below a heading.
pub fn manual(text: &str) -> Vec<String> {
    let mut tables = Tables::default();
    let mut heading = "";
    for line in text.lines() {
        heading = line.strip_prefix("## ").unwrap_or(heading);
        let cells: Vec<&str> = line.trim_matches('|').split('|').map(str::trim).collect();
        match (heading, cells.as_slice()) {
            ("Registers", [offset, _, allowed, reset]) => {
                let numbers = number(offset).zip(resets(reset));
                tables.registers.extend(numbers.map(|(offset, resets)| (offset, bits(allowed), resets)));
            }
            ("Blend modes", [name, source, destination]) => {
                let codes = source.parse().ok().zip(destination.parse().ok());
                tables.blends.extend(codes.map(|(source, destination)| blend_line(name, source, destination)));
            }
            ("Faults", [fault, _, _, status]) => {
                tables.faults.extend(number(fault).zip(number(status)).map(|(fault, status)| fault_line(fault, status)));
            }
            ("Refusals", [refusal, calls, _]) => {
                tables.refusals.extend(number(refusal).map(|refusal| (refusal, calls.to_string())));
            }
            _ => {}
        }
    }
    tables.lines()
}

/// The header: tables in its comments, each below a ruled title. A row begins with a number, and may go on in further lines. Columns are two
/// spaces or more apart.
pub fn header(text: &str) -> Vec<String> {
    let mut tables = Tables::default();
    let rows = rows(text);
    let (mut title, mut reset) = ("", (0, [0; 2]));
    for row in &rows {
        title = row.strip_prefix("---- ").unwrap_or(title);
        reset = other_reset(row).unwrap_or(reset);
        let (first, rest) = row.split_once(' ').unwrap_or((row, ""));
        let columns: Vec<&str> = rest.split("  ").map(str::trim).filter(|column| !column.is_empty()).collect();
        match (title, number(first.trim_matches(',')), columns.as_slice()) {
            ("Batches", Some(_), [_, allowed @ ..]) if first.starts_with("0x") => {
                let named = row.split(' ').map(|word| word.trim_matches(',')).take_while(|word| word.starts_with("0x"));
                let (allowed, of) = (bits(&allowed.join(" ")), |offset| if offset == reset.0 { reset.1 } else { [0; 2] });
                tables.registers.extend(named.filter_map(number).map(|offset| (offset, allowed, of(offset))));
            }
            ("Faults", Some(fault), [_, status, ..]) => {
                tables.faults.extend(number(status).map(|status| fault_line(fault, status)));
            }
            ("Refusals", Some(refusal), [calls, ..]) => tables.refusals.push((refusal, calls.to_string())),
            _ => {}
        }
    }
    tables.lines()
}

/// A reset value by either rule: "VALUE", or "NEW or OLD".
fn resets(text: &str) -> Option<[u32; 2]> {
    let (new, old) = text.split_once(" or ").unwrap_or((text, text));
    number(new).zip(number(old)).map(|(new, old)| [new, old])
}

/// The one register whose reset value is not 0: "0 but OFFSET, which is NEW or OLD by".
fn other_reset(row: &str) -> Option<(u32, [u32; 2])> {
    let (offset, rest) = row.split_once("0 but ")?.1.split_once(", which is ")?;
    number(offset).zip(resets(rest.split_once(" by ")?.0))
}

/// The lines of the header's comments, with those that are indented further joined to the one before.
fn rows(text: &str) -> Vec<String> {
    let mut rows: Vec<String> = Vec::new();
    for line in text.lines() {
        let line = line.strip_prefix(" *").unwrap_or(line);
        match rows.last_mut() {
            Some(row) if line.starts_with("        ") => {
                row.push_str("  ");
                row.push_str(line.trim());
            }
            _ => rows.push(line.trim().to_string()),
        }
    }
    rows
}
