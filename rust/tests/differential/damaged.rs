//! What is done to the bytes of a good plan, so that it is refused, or says something else.

use crate::plans::RECORD;
use crate::rng::Rng;

/// It takes the bytes and gives others.
pub type Damage = fn(&mut Rng, Vec<u8>) -> Vec<u8>;

pub fn none(_: &mut Rng, plan: Vec<u8>) -> Vec<u8> {
    plan
}

/// Puts another byte somewhere in the place of the one that is there.
fn changed(rng: &mut Rng, mut plan: Vec<u8>, other: fn(&mut Rng, u8) -> u8) -> Vec<u8> {
    if !plan.is_empty() {
        let at = rng.below(plan.len());
        plan[at] = other(rng, plan[at]);
    }
    plan
}

pub fn byte_random(rng: &mut Rng, plan: Vec<u8>) -> Vec<u8> {
    changed(rng, plan, |rng, _| rng.word() as u8)
}

/// A byte like the one that is there.
pub fn byte_near(rng: &mut Rng, plan: Vec<u8>) -> Vec<u8> {
    changed(rng, plan, |rng, byte| {
        let like_it: &[u8] = match byte {
            b'L' => b"llTKMI ",
            b'T' => b"ttLSU7 ",
            b' ' => b"\t\n0_,!\0",
            b'\n' => b"\r\r\0 ;\x0b\x85",
            _ => b"/:; O-+",
        };
        let flipped = byte ^ 1 << rng.below(8);
        let like_it = rng.pick(like_it);
        rng.pick(&[like_it, like_it, like_it, flipped])
    })
}

/// Another digit in the place of one.
pub fn digit_random(rng: &mut Rng, mut plan: Vec<u8>) -> Vec<u8> {
    let records = plan.len() / RECORD;
    if records > 0 {
        let at = RECORD * rng.below(records) + rng.pick(&[2, 3, 5, 6]);
        plan[at] = b'0' + rng.below(10) as u8;
    }
    plan
}

pub fn cut_off(rng: &mut Rng, mut plan: Vec<u8>) -> Vec<u8> {
    let left = plan.len().saturating_sub(1 + rng.below(9));
    plan.truncate(left);
    plan
}

/// Bytes of a record, or any bytes.
pub fn added(rng: &mut Rng, mut plan: Vec<u8>) -> Vec<u8> {
    let more = 1 + rng.below(9);
    let any = rng.bytes(more);
    plan.extend_from_slice(if rng.one_in(2) { &b"L 00 01\nT"[..more] } else { &any });
    plan
}

pub fn one_added(rng: &mut Rng, mut plan: Vec<u8>) -> Vec<u8> {
    plan.push(rng.word() as u8);
    plan
}

pub fn exchanged(rng: &mut Rng, mut plan: Vec<u8>) -> Vec<u8> {
    let records = plan.len() / RECORD;
    if records > 0 {
        let [one, other] = [(); 2].map(|()| RECORD * rng.below(records));
        (0..RECORD).for_each(|at| plan.swap(one + at, other + at));
    }
    plan
}

/// Two of these, mostly both in the last record.
pub fn twice(rng: &mut Rng, mut plan: Vec<u8>) -> Vec<u8> {
    let records = if rng.one_in(4) { plan.len() / RECORD } else { 1 };
    let mut end = plan.split_off(plan.len().saturating_sub(RECORD * records));
    for _ in 0..2 {
        let damage: Damage = rng.pick(&[byte_random as Damage, byte_near, digit_random, digit_random]);
        end = damage(rng, end);
    }
    plan.extend(end);
    plan
}
