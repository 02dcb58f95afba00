//! Runs of the original, and refusal 9, which it does not know.

use crate::calls::answers;
use crate::isa::Instruction;
use crate::vm_limited::{Machine, RunStop};

/// The largest count that refusal 9 lets go on.
pub const FULL: u64 = 18_446_744_073_709_551_600;

/// Refusal 9's words: it runs, and a counter is over the largest.
pub fn is_over_counted(machine: &Machine) -> bool {
    !machine.halted && counters(machine).iter().any(|counter| *counter > FULL)
}

/// In the order of `field::COUNTERS`.
pub fn counters(machine: &Machine) -> [u64; 4] {
    [
        machine.instructions,
        machine.micro_operations,
        machine.bus_reads,
        machine.bus_writes,
    ]
}

/// The original's `run`. It knows no refusal, so a run that may be refused is
/// first made instruction by instruction.
pub fn run(machine: &mut Machine, budget: u64, breakpoints: &[u8]) -> Result<Vec<u8>, u8> {
    if !is_near_full(machine) {
        return Ok(plain_run(machine, budget, breakpoints));
    }
    let mut stepped = machine.clone();
    let answer = stepped_run(&mut stepped, budget, breakpoints);
    match answer {
        Ok(answer) => {
            assert_eq!(plain_run(machine, budget, breakpoints), answer);
            assert_eq!(machine.snapshot(), stepped.snapshot());
            Ok(answer)
        }
        Err(refusal) => {
            *machine = stepped;
            Err(refusal)
        }
    }
}

/// Whether a counter may come over the largest in a run; none that a script
/// asks for makes so many ticks.
fn is_near_full(machine: &Machine) -> bool {
    let near = FULL - (1 << 62);
    counters(machine).iter().any(|counter| *counter > near)
}

/// The original does not say how many instructions a run began, but it counts
/// those that it completed: all but an unknown one, which ends the run.
fn plain_run(machine: &mut Machine, budget: u64, breakpoints: &[u8]) -> Vec<u8> {
    let before = machine.instructions;
    let stop = machine.run(budget, breakpoints);
    let opcode = Instruction::from_word(machine.ir).opcode();
    let unknown = stop == RunStop::Fault && opcode.is_none();
    answers::ran(stop, machine.instructions - before + u64::from(unknown))
}

/// The same by single instructions, with refusal 9 before each, after the
/// breakpoints and the budget.
fn stepped_run(machine: &mut Machine, budget: u64, breakpoints: &[u8]) -> Result<Vec<u8>, u8> {
    if machine.halted {
        return Ok(answers::ran(RunStop::AlreadyHalted, 0));
    }
    let mut begun = 0;
    while !machine.halted {
        if begun > 0 && breakpoints.contains(&machine.pc) {
            return Ok(answers::ran(RunStop::Breakpoint(machine.pc), begun));
        }
        if begun >= budget {
            // A spent budget halts the machine, as the original does it.
            machine.run(0, &[]);
            return Ok(answers::ran(RunStop::Budget, begun));
        }
        if is_over_counted(machine) {
            return Err(9);
        }
        machine.step_instruction();
        begun += 1;
    }
    let stop = match machine.fault {
        Some(_) => RunStop::Fault,
        None => RunStop::Halted,
    };
    Ok(answers::ran(stop, begun))
}
