//! The two lists of `replay_words` on plans and single ticks, as those in
//! `text_lists`.

use crate::isa::Opcode;
use crate::machines::{self, EDGES};
use crate::random::Random;
use crate::record::Record;
use crate::vm::Machine;
use crate::words::text_lists;
use crate::words::ticks;

/// Counts around the width of a word, and the largest.
const SHIFTS: [u16; 6] = [0, 1, 15, 16, 17, 255];

/// The list that is replayed wherever the port is checked.
pub fn fixed() -> Vec<Record> {
    let mut random = Random::new(0x71C5);
    let mut records = ticks::phases();
    records.extend(ticks::operations());
    records.extend(
        text_lists::edge_words(&mut random)
            .into_iter()
            .map(ticks::plan),
    );
    records.extend(every_tick(&mut random).iter().map(ticks::micro));
    records.extend(shifts(&mut random).iter().map(ticks::micro));
    records.extend(sums(&mut random).iter().map(ticks::micro));
    records.extend(negations(&mut random).iter().map(ticks::micro));
    records.extend(jumps(&mut random).iter().map(ticks::micro));
    records
}

/// The fixed list, every word there is, and many more machines.
pub fn full() -> Vec<Record> {
    let mut random = Random::new(0x71C5_F011);
    let mut records = fixed();
    records.extend((0..=u16::MAX).map(ticks::plan));
    records.extend((0..200_000).map(|_| ticks::micro(&machines::any(&mut random))));
    records
}

/// One record of each kind, with either end of a plan and of a tick.
pub fn samples() -> Vec<Record> {
    let mut random = Random::new(0x5A_1E);
    let mut samples = vec![ticks::plan(0x3123), ticks::plan(0xE000)];
    samples.push(ticks::phases()[2].clone());
    samples.push(ticks::operations()[1].clone());
    samples.push(ticks::micro(&machines::at(&mut random, 0x5123, 3)));
    samples.push(ticks::micro(&machines::at(&mut random, 0x6123, 4)));
    samples
}

/// For each opcode nibble every tick it has, the execute ticks more often.
fn every_tick(random: &mut Random) -> Vec<Machine> {
    let mut machines = Vec::new();
    for opcode in 0..16u16 {
        for tick in 0..4 + machines::execute_ticks(opcode << 12) {
            let times = if tick < 4 { 5 } else { 38 };
            machines.extend((0..times).map(|_| {
                let word = machines::word_of(random, opcode);
                machines::at(random, word, tick)
            }));
        }
    }
    machines
}

/// Every shift count of interest, of every edge.
fn shifts(random: &mut Random) -> Vec<Machine> {
    let mut machines = Vec::new();
    for opcode in [Opcode::ShiftRight, Opcode::ShiftLeft] {
        for count in SHIFTS {
            machines.extend(EDGES.map(|value| {
                let x = random.below(16);
                let word = (opcode.nibble() as u16) << 12 | (x as u16) << 8 | count;
                with_register(machines::at(random, word, 4), x, value)
            }));
        }
    }
    machines
}

/// The sum of every edge and every edge.
fn sums(random: &mut Random) -> Vec<Machine> {
    let mut machines = Vec::new();
    for left in EDGES {
        machines.extend(EDGES.map(|right| {
            let machine = machines::at(random, 0x6A12, 4);
            with_register(with_register(machine, 1, left), 2, right)
        }));
    }
    machines
}

/// Every edge negated.
fn negations(random: &mut Random) -> Vec<Machine> {
    EDGES
        .map(|value| with_register(machines::at(random, 0x70F0, 4), 0xF, value))
        .to_vec()
}

/// Jumps on each register: taken by equal words, and not by words that differ
/// in one bit, save on R0, which equals itself.
fn jumps(random: &mut Random) -> Vec<Machine> {
    let mut machines = Vec::new();
    for x in 0..16u16 {
        let word = 0xD000 | x << 8 | u16::from(random.byte());
        let machine = machines::at(random, word, 4);
        let zero = machine.registers[0];
        let other = zero ^ 1 << random.below(16);
        machines.push(with_register(machine.clone(), x as usize, zero));
        machines.push(with_register(machine, x as usize, other));
    }
    machines
}

fn with_register(mut machine: Machine, register: usize, value: u16) -> Machine {
    machine.registers[register] = value;
    machine
}
