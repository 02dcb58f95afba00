//! The copy of the original whose history limit can be set has types of its
//! own, with the same fields. Here its values become the original's, so that
//! one writer serves both.

use crate::{vm, vm_limited};

pub fn fault(fault: vm_limited::Fault) -> vm::Fault {
    let kind = match fault.kind {
        vm_limited::FaultKind::UnknownInstruction => vm::FaultKind::UnknownInstruction,
        vm_limited::FaultKind::StepBudgetExhausted => vm::FaultKind::StepBudgetExhausted,
    };
    vm::Fault {
        kind,
        word: fault.word,
        address: fault.address,
    }
}

pub fn transfer(transfer: vm_limited::BusTransfer) -> vm::BusTransfer {
    let direction = match transfer.direction {
        vm_limited::BusDirection::Read => vm::BusDirection::Read,
        vm_limited::BusDirection::Write => vm::BusDirection::Write,
    };
    vm::BusTransfer {
        direction,
        address: transfer.address,
        value: transfer.value,
    }
}

pub fn alu(record: &vm_limited::AluRecord) -> vm::AluRecord {
    vm::AluRecord {
        operation: record.operation.clone(),
        left: record.left,
        right: record.right,
        result: record.result,
    }
}

pub fn phase(phase: vm_limited::Phase) -> vm::Phase {
    match phase {
        vm_limited::Phase::Fetch => vm::Phase::Fetch,
        vm_limited::Phase::Decode => vm::Phase::Decode,
        vm_limited::Phase::Execute => vm::Phase::Execute,
        vm_limited::Phase::Halt => vm::Phase::Halt,
    }
}

pub fn op(op: vm_limited::MicroOp) -> vm::MicroOp {
    vm::MicroOp {
        text: op.text,
        phase: phase(op.phase),
        ends_instruction: op.ends_instruction,
        halts: op.halts,
        faulted: op.faulted,
        bus: op.bus.map(transfer),
        register_writes: op.register_writes,
        address: op.address,
    }
}
