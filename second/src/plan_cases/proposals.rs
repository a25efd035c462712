//! Random proposals: the right one for the openings, other right ones, and wrong ones made of them.

use crate::plan::{proposal_text, propose, Proposal};
use crate::plan_list::Opening;
use crate::random::Random;
use crate::text_faults::{spoil_text, TEXT_FAULTS};

/// What can be done to a proposal before it is written.
type Change = fn(&mut Random, &mut Proposal);

/// Changes that leave a proposal right, as far as the limit lets its size be.
const RIGHT_CHANGES: [Change; 4] = [turn_round, give_other_buffers, give_other_buffers, add_room];

/// Changes that mostly make it wrong.
const WRONG_CHANGES: [Change; 11] = [
    other_size,
    too_small,
    past_the_size,
    same_twice,
    drop_buffer,
    add_buffer,
    any_buffer,
    neighbours_buffer,
    neighbours_buffer,
    drop_opening,
    drop_opening,
];

/// Draws the text of a proposal. A quarter are the planner's own, and half are made wrong: in what they
/// propose, in the file that a line names, by a line more, or as a text.
pub fn draw(random: &mut Random, openings: &[Opening]) -> Vec<u8> {
    let mut proposal = propose(openings);
    let mut named = openings.to_vec();
    let sort = random.below(8);
    if sort >= 2 {
        for _ in 0..random.between(0, 2) {
            random.pick(&RIGHT_CHANGES)(random, &mut proposal);
        }
    }
    match sort {
        4 | 5 => random.pick(&WRONG_CHANGES)(random, &mut proposal),
        6 if random.chance(1, 3) => name_other_file(random, &mut named),
        _ => {}
    }
    let mut text = proposal_text(&named, &proposal).into_bytes();
    if sort == 6 && named == openings {
        let extra = random.pick(&["0 0\n", "0 0 1\n", "\n", "5 64\n", "size 1\n", "0\n", "0 0 1 2\n"]);
        text.extend(extra.as_bytes());
    } else if sort == 7 {
        let fault = random.pick(&TEXT_FAULTS);
        spoil_text(random, &mut text, fault);
    }
    text
}

/// The buffers of an opening; nothing if there is no opening.
fn any_opening<'a>(random: &mut Random, proposal: &'a mut Proposal) -> Option<&'a mut Vec<u64>> {
    let count = proposal.buffers.len() as u64;
    (count > 0).then(|| random.below(count) as usize).and_then(|at| proposal.buffers.get_mut(at))
}

/// The higher buffer stands first.
fn turn_round(random: &mut Random, proposal: &mut Proposal) {
    for buffers in &mut proposal.buffers {
        if random.chance(1, 2) {
            buffers.reverse();
        }
    }
}

/// Every buffer goes by another number inside the size.
fn give_other_buffers(random: &mut Random, proposal: &mut Proposal) {
    let mut numbers: Vec<u64> = (0..proposal.size).collect();
    for at in 0..numbers.len() {
        numbers.swap(at, random.below(at as u64 + 1) as usize);
    }
    for buffer in proposal.buffers.iter_mut().flatten() {
        *buffer = numbers[*buffer as usize];
    }
}

fn add_room(random: &mut Random, proposal: &mut Proposal) {
    proposal.size += random.pick(&[1, 1, 2, 5]);
}

fn other_size(random: &mut Random, proposal: &mut Proposal) {
    let size = proposal.size;
    proposal.size = random.pick(&[0, 64, 65, 256, size + 64, size + 256]);
}

fn too_small(_: &mut Random, proposal: &mut Proposal) {
    proposal.size -= 1;
}

fn past_the_size(random: &mut Random, proposal: &mut Proposal) {
    let size = proposal.size;
    if let Some(buffer) = any_opening(random, proposal).and_then(|buffers| buffers.first_mut()) {
        *buffer = random.pick(&[size, size, size + 1, *buffer + 64, *buffer + 256]);
    }
}

fn same_twice(random: &mut Random, proposal: &mut Proposal) {
    let doubles = proposal.buffers.iter_mut().filter(|buffers| buffers.len() == 2);
    let mut doubles: Vec<&mut Vec<u64>> = doubles.collect();
    if !doubles.is_empty() {
        let at = random.below(doubles.len() as u64) as usize;
        doubles[at][0] = doubles[at][1];
    }
}

fn drop_buffer(random: &mut Random, proposal: &mut Proposal) {
    if let Some(buffers) = any_opening(random, proposal) {
        buffers.pop();
    }
}

fn add_buffer(random: &mut Random, proposal: &mut Proposal) {
    let buffer = random.below(proposal.size);
    if let Some(buffers) = any_opening(random, proposal) {
        buffers.push(buffer);
    }
}

/// One that another open file may hold.
fn any_buffer(random: &mut Random, proposal: &mut Proposal) {
    let other = random.below(proposal.size);
    if let Some(buffer) = any_opening(random, proposal).and_then(|buffers| buffers.last_mut()) {
        *buffer = other;
    }
}

/// One that the opening just before it has.
fn neighbours_buffer(random: &mut Random, proposal: &mut Proposal) {
    if proposal.buffers.len() >= 2 {
        let at = random.between(1, proposal.buffers.len() as u64 - 1) as usize;
        let place = random.below(proposal.buffers[at].len() as u64) as usize;
        proposal.buffers[at][place] = proposal.buffers[at - 1][0];
    }
}

/// The last opening has no line.
fn drop_opening(_: &mut Random, proposal: &mut Proposal) {
    proposal.buffers.pop();
}

fn name_other_file(random: &mut Random, named: &mut [Opening]) {
    if !named.is_empty() {
        let at = random.below(named.len() as u64) as usize;
        let file = named[at].file;
        named[at].file = random.pick(&[file + 1, file + 64, file + 256, 0]);
    }
}
