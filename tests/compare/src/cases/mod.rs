//! Cases for the calls one at a time: each subject in a file, exhaustive where its range is small.
mod alphas;
mod batches;
mod blends;
mod encoder;
mod examples;
mod faults;
mod gradients;
mod headers;
mod pieces;
mod pixels;
mod premultiplied;
mod queue;
mod records;
mod registers;
mod resets;
mod rules;
mod solids;
mod spans;
mod transforms;
mod walks;

pub use encoder::any_fields;
pub use records::damage;
pub use walks::walk;

use crate::laid_out::LaidOut;
use crate::lent::GUARDS;
use crate::trials::{Agreed, Trials};

/// A subject's name, and what tries its cases.
type Subject = (&'static str, fn(&mut Trials) -> Agreed);

const SUBJECTS: [Subject; 20] = [
    ("examples of the scope paper", examples::compare),
    ("registers", registers::compare),
    ("headers and groups", headers::compare),
    ("faults at every place", faults::compare),
    ("reset rules", resets::compare),
    ("rules of a task", rules::compare),
    ("spans", spans::compare),
    ("pixels", pixels::compare),
    ("alphas", alphas::compare),
    ("blends", blends::compare),
    ("premultiplied sources", premultiplied::compare),
    ("rows of one colour and of constant factors", solids::compare),
    ("transforms", transforms::compare),
    ("gradients", gradients::compare),
    ("batches of several tasks", batches::compare),
    ("queue", queue::compare),
    ("batches by pieces", pieces::compare),
    ("records", records::compare),
    ("encoder", encoder::compare),
    ("walks", walks::compare),
];

/// Whether all cases agree.
pub fn compare() -> bool {
    let mut total = 0;
    for (name, subject) in SUBJECTS {
        let mut trials = Trials::new(GUARDS);
        println!("{name}:");
        if let Err(differs) = subject(&mut trials) {
            println!("differs after {} calls:\n  {differs}", trials.count);
            return false;
        }
        trials.print();
        println!("{:>12}  calls", trials.count);
        total += trials.count;
    }
    println!("{total} calls: all agree");
    true
}

/// Subjects whose tasks are tried by what they draw, and whose cases look at no answer; and of how many of eleven cases that is done here.
const DRAWING: [(Subject, u64); 7] = [
    (("alphas", alphas::compare), 11),
    (("blends", blends::compare), 4),
    (("premultiplied sources", premultiplied::compare), 11),
    (("rows of one colour and of constant factors", solids::compare), 11),
    (("transforms", transforms::compare), 11),
    (("gradients", gradients::compare), 11),
    (("batches of several tasks", batches::compare), 11),
];

/// The cases of these subjects, written in replay files.
pub fn drawn_in_files(mut files: LaidOut) -> Agreed<LaidOut> {
    for ((name, subject), share) in DRAWING {
        files.take(share);
        let before = files.counts();
        let mut trials = Trials::in_files(files);
        subject(&mut trials)?;
        files = trials.written()?.expect("the files that were lent");
        let after = files.counts();
        println!("{:>12}  batches in {} files: {name}", after.batches - before.batches, after.files - before.files);
    }
    Ok(files)
}
