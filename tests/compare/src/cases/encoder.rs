//! The encoder, in both forms: every field at and around every limit, alone and by twos; every code; buffers of every length.
use crate::trials::{Agreed, Trials};
use independent::gradient::STEP_BITS;
use independent::made_tasks::Fields;
use independent::pixel::FORMATS;
use independent::random::Random;
use independent::writer::field::{
    DESTINATION, DESTINATION_ALPHA_MODE, DESTINATION_FACTOR, FORMAT, OUTPUT, SOURCE, SOURCE_ALPHA_MODE, SOURCE_FACTOR,
    SOURCE_MODE,
};
use independent::writer::{reset_with, FIELDS};

pub fn compare(trials: &mut Trials) -> Agreed {
    limits(trials)?;
    codes(trials)?;
    lengths(trials)?;
    steps(trials)?;
    random(trials)
}

/// Numbers at and around the end of a field's bits, and every small one that is the end of some code.
fn edges(width: u32) -> Vec<u32> {
    let end = (1u64 << width) as u32;
    let mut edges = vec![0, 1, 2, 3, 5, 6, 8, 14, 1 << 31, u32::MAX - 1, u32::MAX];
    edges.extend([end.wrapping_sub(2), end.wrapping_sub(1), end, end.wrapping_add(1), end.wrapping_mul(2)]);
    edges
}

/// Every field at its edges, alone and with every other field at its own.
fn limits(trials: &mut Trials) -> Agreed {
    let at_edges = |at: usize| edges(FIELDS[at].2).into_iter().map(move |value| (at, value));
    let all: Vec<(usize, u32)> = (0..FIELDS.len()).flat_map(at_edges).collect();
    for (i, one) in all.iter().enumerate() {
        trials.encode(&reset_with(&[*one]), &[0x55; 84])?;
        for other in all[i + 1..].iter().filter(|other| other.0 != one.0) {
            trials.encode(&reset_with(&[*one, *other]), &[0x55; 84])?;
        }
    }
    Ok(())
}

/// Every number of 9 bits in every field.
fn codes(trials: &mut Trials) -> Agreed {
    for at in 0..FIELDS.len() {
        for code in 0..512 {
            trials.encode(&reset_with(&[(at, code)]), &[0xAA; 80])?;
        }
    }
    Ok(())
}

/// Allowed fields and such as are not, in buffers of every length: 24 before 12.
fn lengths(trials: &mut Trials) -> Agreed {
    for length in 0..=200 {
        for fields in [&[(0, 2), (1, 1)][..], &[(0, 8192)], &[(2, 0xFFFF), (3, u32::MAX)], &[(28, 2)]] {
            trials.encode(&reset_with(fields), &vec![0xEE; length])?;
        }
    }
    Ok(())
}

/// Each step at the edges of its 25 bits and with each bit, alone and by twos; the second form in buffers of every length: 24 before 12.
fn steps(trials: &mut Trials) -> Agreed {
    let fields = reset_with(&[(0, 2), (1, 1), (SOURCE_MODE, 2)]);
    let mut values = edges(25);
    values.extend((0..32).map(|bit| 1 << bit));
    values.extend([0x0FF_FFFF, 0x100_0000, 0x100_0001]);
    let all: Vec<(usize, u32)> = (0..4).flat_map(|at| values.iter().map(move |value| (at, *value))).collect();
    for one in &all {
        for other in &all {
            let mut steps = [0; 4];
            (steps[one.0], steps[other.0]) = (one.1, other.1);
            trials.encode_shaded(&fields, &steps, &[0x55; 104])?;
        }
    }
    for length in 0..=200 {
        for (change, steps) in [((2, 8), [1, 2, 3, 4]), ((0, 8192), [0; 4]), ((2, 8), [0, 0x200_0000, 0, 0])] {
            trials.encode_shaded(&reset_with(&[change]), &steps, &vec![0xEE; length])?;
        }
    }
    Ok(())
}

/// Fields that fit their bits, with codes that are allowed; one in three times one of them is any number.
pub fn any_fields(random: &mut Random) -> Fields {
    let mut fields = FIELDS.map(|(_, _, width)| (u64::from(random.word()) & ((1u64 << width) - 1)) as u32);
    for surface in [SOURCE, DESTINATION, OUTPUT] {
        fields[surface + FORMAT] = FORMATS[random.below(3) as usize].code;
    }
    for (at, codes) in
        [(SOURCE_ALPHA_MODE, 3), (SOURCE_MODE, 4), (DESTINATION_ALPHA_MODE, 3), (SOURCE_FACTOR, 6), (DESTINATION_FACTOR, 6)]
    {
        fields[at] = random.below(codes);
    }
    if random.one_in(3) {
        fields[random.below(30) as usize] = random.word();
    }
    fields
}

fn random(trials: &mut Trials) -> Agreed {
    let random = &mut Random::new(0x454E_434F);
    for _ in 0..20_000 {
        let fields = any_fields(random);
        let length = if random.one_in(4) { random.below(100) } else { 80 + random.below(60) };
        let buffer = random.bytes(length as usize);
        trials.encode(&fields, &buffer)?;
        let steps = std::array::from_fn(|_| if random.one_in(20) { random.word() } else { random.word() & STEP_BITS });
        trials.encode_shaded(&fields, &steps, &[&buffer[..], &[0x77; 20]].concat())?;
    }
    Ok(())
}
