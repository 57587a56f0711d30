//! Settings that the library composes, held to pictures: of every two settings, drawn one after the other and at once.
use crate::lent::GUARDS;
use crate::linked;
use crate::lists::agreed;
use independent::compositions::{bits, same_orientation, Drawing, SIDES};
use independent::transform::{settings, Setting, Size};

/// Bits that are no part of a setting.
const OTHERS: u32 = !0xF0;

/// What is wrong with one drawing of two settings, if anything is.
fn fault(drawing: &Drawing, composed: u32) -> Option<String> {
    let list = drawing.list(composed);
    if let Err(differs) = agreed(&list, GUARDS) {
        return Some(differs);
    }
    let memory = linked::play(&list, GUARDS)?.memory;
    let expected = drawing.expected(&list.memory);
    let twice = drawing.pixels(drawing.twice(), &memory) == expected;
    let once = drawing.pixels(drawing.once(), &memory) == expected;
    (!twice || !once).then(|| format!("as expected: drawn twice {twice}, drawn once {once}"))
}

/// The drawings of two settings: every size in every format.
fn drawings(first: Setting, second: Setting) -> impl Iterator<Item = Drawing> {
    let all = (0..3).flat_map(|format| SIDES.map(|sides| (format, sides)));
    all.map(move |(format, (width, height))| Drawing { first, second, size: Size { width, height }, format })
}

/// Whether two settings compose to one that draws as both do, whatever other bits the words have.
fn pair_agrees(first: Setting, second: Setting) -> bool {
    let composed = linked::compose(bits(first), bits(second));
    let alike = composed & OTHERS == 0 && linked::compose(bits(first) | OTHERS, bits(second) | OTHERS) == composed;
    let found = drawings(first, second).find_map(|drawing| fault(&drawing, composed));
    if !alike || found.is_some() {
        println!("settings {:#04X} and {:#04X}, composed {composed:#04X}: {found:?}", bits(first), bits(second));
    }
    alike && found.is_none()
}

/// The 2 by 2 picture as the library draws it with a setting.
fn square(setting: Setting) -> Vec<Vec<u8>> {
    let neutral = Setting { turns: 0, horizontal: false, vertical: false };
    let drawing = Drawing { first: setting, second: neutral, size: Size { width: 2, height: 2 }, format: 0 };
    let mut list = drawing.list(bits(setting));
    list.memory.iter_mut().enumerate().for_each(|(at, byte)| *byte = at as u8);
    linked::play(&list, GUARDS).map_or_else(Vec::new, |played| drawing.pixels(drawing.between(), &played.memory))
}

/// Whether exactly settings of one orientation draw the 2 by 2 picture alike.
fn orientations_agree() -> bool {
    pairs().all(|(a, b)| (square(a) == square(b)) == same_orientation(a, b))
}

/// Whether the inverse undoes each setting on both sides, and three compose to the same from either end.
fn laws_hold() -> bool {
    let undone = settings().map(bits).all(|a| {
        let back = linked::inverse(a | OTHERS);
        linked::compose(a, back) == 0 && linked::compose(back, a) == 0 && back & OTHERS == 0
    });
    let compose = linked::compose;
    let three = |a: u32, b: u32, c: u32| compose(compose(a, b), c) == compose(a, compose(b, c));
    undone && pairs().all(|(a, b)| settings().all(|c| three(bits(a), bits(b), bits(c))))
}

fn pairs() -> impl Iterator<Item = (Setting, Setting)> {
    settings().flat_map(|a| settings().map(move |b| (a, b)))
}

/// Whether all settings agree with the pictures.
pub fn compare() -> bool {
    let report = |name: &str, holds: bool| println!("{name}: {}", if holds { "as it should be" } else { "WRONG" });
    let (drawn, orientations, laws) = (pairs().all(|(a, b)| pair_agrees(a, b)), orientations_agree(), laws_hold());
    report("256 pairs of settings, drawn twice and at once, 6 sizes in 3 formats", drawn);
    report("the 2 by 2 picture is drawn alike by settings of one orientation and by no others", orientations);
    report("inverses, and 4,096 threes", laws);
    drawn && orientations && laws
}
