//! The tables of the papers as lines of text, as this program acts by them: registers with their allowed bits and reset values,
//! blend modes, faults with their status words, and each call's refusals in their order.
use crate::batch::Fault;
use crate::calls::{call, Buffers, Call};
use crate::engine::Numbers;
use crate::pixel::RULES;
use crate::registers::{allowed_bits, offsets, Bank, SRC_OVER, UNBLENDED};
use crate::tint::tinted;
use crate::writer::{reset_with, shaded_written, written};

/// With the reset values by the new rule and by the old one.
pub fn register_line(offset: u32, bits: u32, [new, old]: [u32; 2]) -> String {
    let other = if new == old { String::new() } else { format!(" or 0x{old:08X}") };
    format!("register 0x{offset:03X}: bits 0x{bits:08X}, reset 0x{new:08X}{other}")
}

pub fn fault_line(number: u32, status: u32) -> String {
    format!("fault {number}: status 0x{status:08X}")
}

pub fn blend_line(name: &str, source: u8, destination: u8) -> String {
    format!("blend mode {name}: factors {source}, {destination}")
}

pub fn refusal_line(call: &str, numbers: &[u32]) -> String {
    format!("{call}: refusals {numbers:?}")
}

pub fn lines() -> Vec<String> {
    let resets = |offset| [SRC_OVER, UNBLENDED].map(|rule| Bank::reset(rule).word(offset));
    let registers = offsets().into_iter().map(|offset| register_line(offset, allowed_bits(offset), resets(offset)));
    let blends = RULES.iter().map(|(name, source, destination)| blend_line(name, *source, *destination));
    let faults = (20..=28).map(|number| fault_line(number, Fault { number, place: 0 }.status()));
    registers.chain(blends).chain(faults).chain(refusals()).collect()
}

const GOOD: Numbers = Numbers { ring: 128, memory: 1024, common: 256 };

/// An engine with some clients open, and some batches of 16 bytes ready.
fn buffers(clients: u32, batches: usize) -> Buffers {
    let mut buffers = Buffers { engine: vec![0; 272], ring: vec![0; 128], memory: vec![0; 1024] };
    let mut accepted = |asked: &Call| assert_eq!(call(asked, &mut buffers).number, 0);
    accepted(&Call::SetUp(GOOD, SRC_OVER));
    (0..clients).for_each(|client| accepted(&Call::Open { start: 256 + 64 * client, length: 64 }));
    (0..batches).for_each(|_| accepted(&Call::Submit { client: 0, batch: &[0; 16] }));
    buffers
}

/// Four clients, seven batches, and four bytes that client 0 hands over: no slot is free.
fn handing_over() -> Buffers {
    let mut buffers = buffers(4, 7);
    assert_eq!(call(&Call::Begin { client: 0, total: 4 }, &mut buffers).number, 0);
    buffers
}

fn number(asked: &Call, mut on: Buffers) -> u32 {
    call(asked, &mut on).number
}

/// Of each call: first everything is wrong with it, then one thing after the other is put right.
fn refusals() -> Vec<String> {
    let none = || Buffers { engine: vec![0; 272], ..buffers(0, 0) };
    let no_room = || Buffers { engine: vec![], ..buffers(0, 0) };
    let other_ring = |on: Buffers| Buffers { ring: vec![0; 64], ..on };
    let set_up = |ring| Call::SetUp(Numbers { ring, memory: 1 << 25, common: 0 }, SRC_OVER);
    let open = Call::Open { start: 0, length: 1 };
    let submit = |client, length: usize| Call::Submit { client, batch: &[0; 20][..length] };
    let begin = |client, length: usize| Call::Begin { client, total: length as u64 };
    let piece = |client| Call::Piece { client, piece: &[0; 20] };
    let cancel = |client| Call::Cancel { client };
    let pending = Call::Pending { client: 4 };
    let of_batch = |asked: &dyn Fn(u32, usize) -> Call<'static>| {
        [
            number(&asked(4, 0), none()),
            number(&asked(4, 0), other_ring(handing_over())),
            number(&asked(4, 0), handing_over()),
            number(&asked(0, 0), handing_over()),
            number(&asked(0, 0), buffers(4, 8)),
            number(&asked(0, 20), buffers(4, 8)),
            number(&asked(0, 20), buffers(4, 7)),
        ]
    };
    let of_piece = [
        number(&piece(4), none()),
        number(&piece(4), other_ring(handing_over())),
        number(&piece(4), handing_over()),
        number(&piece(0), handing_over()),
    ];
    let of_cancel = [number(&cancel(4), none()), number(&cancel(4), handing_over()), number(&cancel(1), handing_over())];
    let other_memory = Buffers { memory: vec![0; 64], ..buffers(1, 1) };
    let of_close =
        [(4, none()), (4, other_memory), (4, buffers(1, 1)), (0, buffers(1, 1))].map(|(client, on)| number(&Call::Close { client }, on));
    let of_run = [none(), other_ring(buffers(0, 0)), buffers(0, 0)].map(|on| number(&Call::Run, on));
    vec![
        refusal_line("set up", &[number(&set_up(0), no_room()), number(&set_up(0), none()), number(&set_up(128), none())]),
        refusal_line("open", &[none(), buffers(4, 0), buffers(3, 0)].map(|on| number(&open, on))),
        refusal_line("submit", &of_batch(&submit)),
        refusal_line("begin", &of_batch(&begin)),
        refusal_line("piece", &of_piece),
        refusal_line("cancel", &of_cancel),
        refusal_line("run", &of_run),
        refusal_line("pending", &[none(), buffers(4, 0)].map(|on| number(&pending, on))),
        refusal_line("close", &of_close),
        refusal_line("encode", &[8192, 1].map(|width| encode(width, 0))),
        refusal_line("encode shaded", &[1 << 25, 1].map(|step| encode_shaded(step, 99))),
        refusal_line("encode tint", &[(f32::NAN, 8192), (1.0, 8192), (1.0, 1)].map(|(score, width)| tint(score, width, 0))),
    ]
}

fn encode(width: u32, room: usize) -> u32 {
    written(&reset_with(&[(0, width)]), room).err().unwrap_or(0)
}

fn encode_shaded(step: u32, room: usize) -> u32 {
    shaded_written(&reset_with(&[]), &[0, 0, 0, step], room).err().unwrap_or(0)
}

fn tint(score: f32, width: u32, room: usize) -> u32 {
    tinted(score.to_bits(), [0; 3], [width, 1, 8, 0, 0], room).err().unwrap_or(0)
}
