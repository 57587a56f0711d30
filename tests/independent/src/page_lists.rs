//! Lists of calls that put one surface at every place about another on a page (02, request 7): each place a task of its own, so
//! that rows beside each other, below each other, across a line's end and on one another are all judged and drawn.
use crate::engine::Numbers;
use crate::made_tasks::{Fields, DESTINATION};
use crate::play::{List, ANSWER};
use crate::registers::SRC_OVER;
use crate::sample_tasks::{batch, blended, copy, fill, set, Place, ARGB8888, RGB565, RGB888};

const NUMBERS: Numbers = Numbers { ring: 128, memory: 1024, common: 64 };
const WINDOW: (u32, u32) = (64, 960);

/// What the surface that is read is.
#[derive(Clone, Copy)]
enum Role {
    Source,
    /// a source that is blended with the output itself
    BlendedSource,
    Destination,
}

const ROLES: [Role; 3] = [Role::Source, Role::BlendedSource, Role::Destination];

/// One surface that is read and one that is drawn in: what they are, wherever the first lies.
#[derive(Clone, Copy)]
struct Pair {
    read: Place,
    output: Place,
    role: Role,
}

impl Pair {
    /// The task with the surface that is read at an address.
    fn task(self, address: u32) -> Fields {
        let read = Place { address, ..self.read };
        match self.role {
            Role::Source => copy(read, self.output, 0, 0, 0),
            Role::BlendedSource => blended(copy(read, self.output, 0, 0, 0), "SRC_OVER"),
            Role::Destination => {
                let mut fields = blended(fill(self.output, 0x8040_C020), "SRC_OVER");
                set(&mut fields, DESTINATION, read);
                fields
            }
        }
    }

    /// The window is opened, and each place's task is submitted and run.
    fn list(self) -> List {
        let mut script = vec![0];
        script.extend([WINDOW.0, WINDOW.1].iter().flat_map(|number| number.to_le_bytes()));
        let places = self.output.address - 160..self.output.address + 161;
        for address in places.clone() {
            let batch = batch(&[self.task(address)]);
            script.extend([1, 0]);
            script.extend((batch.len() as u32).to_le_bytes());
            script.extend(batch);
            script.push(2);
        }
        let bytes = |count: u64| (0..count).map(|i| (i * 37 + i / 11) as u8).collect();
        let answers = vec![0; ANSWER * (2 + 2 * places.len())];
        List { numbers: NUMBERS, reset: SRC_OVER, script, ring: bytes(NUMBERS.ring), memory: bytes(NUMBERS.memory), answers }
    }
}

/// Every two formats, sizes that fill the line or leave some of it, strides equal or not, read as source, blended or not, or as destination.
pub fn lists() -> Vec<List> {
    let formats = [ARGB8888, RGB888, RGB565];
    let sizes = [(3, 3), (3, 1), (6, 3), (1, 4), (8, 2)];
    let mut lists = Vec::new();
    for (format, other) in formats.iter().flat_map(|a| formats.iter().map(move |b| (*a, *b))) {
        for (width, height) in sizes {
            for (stride, role) in [32, 40].into_iter().flat_map(|stride| ROLES.map(|role| (stride, role))) {
                let output = Place { address: 512, stride: 32, width, height, format };
                let read = Place { stride, format: other, ..output };
                lists.push(Pair { read, output, role }.list());
            }
        }
    }
    lists
}
