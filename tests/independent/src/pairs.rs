//! Which kinds of pairs rule 28 was asked about (01, "Faults of a taken batch"; 02, request 7): for counting alone.
use crate::registers::Task;
use crate::surface::{shares, Surface};

/// Whether a row of one and a row of the other take up the same part of a line.
fn same_part_of_a_line(a: &Surface, b: &Surface) -> bool {
    let stride = u64::from(a.stride);
    let first = |s: &Surface| s.rows().next().unwrap_or(0..0);
    first(a).any(|i| first(b).any(|j| i % stride == j % stride))
}

fn by_spans(read: &Surface, output: &Surface) -> &'static str {
    match (shares(&read.span(), &output.span()), read.rows_meet(output)) {
        (true, true) => "unequal strides, rows meet",
        (true, false) => "unequal strides, spans meet and no rows",
        _ => "unequal strides, apart",
    }
}

fn by_rows(read: &Surface, output: &Surface) -> &'static str {
    if read.rows_meet(output) {
        let level = read.rows().zip(output.rows()).any(|(a, b)| shares(&a, &b));
        return if level { "equal strides, rows meet" } else { "equal strides, rows meet, none of equal number" };
    }
    match (shares(&read.span(), &output.span()), same_part_of_a_line(read, output)) {
        (true, _) => "equal strides, columns: spans meet and no rows",
        (false, true) => "equal strides, one below the other",
        (false, false) => "equal strides, apart",
    }
}

/// What else is worth counting of a pair with equal strides whose spans meet.
fn besides(read: &Surface, output: &Surface) -> Vec<&'static str> {
    if read.stride != output.stride || !shares(&read.span(), &output.span()) {
        return Vec::new();
    }
    let is_full = |s: &Surface| s.row_length() == u64::from(s.stride);
    let marks = [
        (read.format.code != output.format.code, "equal strides, spans meet, another format"),
        (output.height == 1, "equal strides, spans meet, height 1"),
        (is_full(read) && is_full(output), "equal strides, spans meet, full widths"),
    ];
    marks.iter().filter(|(holds, _)| *holds).map(|(_, mark)| *mark).collect()
}

fn kinds(read: &Surface, output: &Surface) -> Vec<&'static str> {
    let mut kinds = besides(read, output);
    kinds.push(if read.stride == output.stride { by_rows(read, output) } else { by_spans(read, output) });
    kinds
}

/// The kinds of a task's pairs, each with the name of what is read.
pub fn of_task(task: &Task) -> Vec<String> {
    let pairs = [(task.has_buffer(), "source", &task.source), (task.blend, "destination", &task.destination)];
    let asked = pairs.into_iter().filter(|(is_read, ..)| *is_read);
    asked
        .flat_map(|(_, name, read)| kinds(read, &task.output).into_iter().map(move |kind| format!("28 of {name}: {kind}")))
        .collect()
}
