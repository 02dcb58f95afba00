//! Lists of calls without a history store, for `massey_calls`: each begins with
//! a new machine, and behind each call the whole machine is dumped. A script has
//! many lists.

use crate::calls::commands::{by_direct_engine, run, Command};
use crate::calls::program::LONGEST;
use crate::calls::scripts::draft::Draft;
use crate::calls::scripts::random::{by_either_engine, near};
use crate::programs::{self, HALT, IDLE, JUMP};
use crate::random::Random;
use crate::sizes::{CODE_WORDS, MEMORY_WORDS};
use crate::vm::Machine;

/// How many lists by chance there are, and how many a script has.
const LISTS: usize = 100_000;
const IN_A_SCRIPT: usize = 500;

/// How many scripts there are: the first two have the lists that were chosen.
pub const LIST_SCRIPTS: usize = 2 + LISTS / IN_A_SCRIPT;

/// Image lengths around none, one and the machine's size, and well over it.
const LENGTHS: [usize; 10] = [
    0,
    1,
    2,
    MEMORY_WORDS - 1,
    MEMORY_WORDS,
    MEMORY_WORDS + 1,
    300,
    2 * MEMORY_WORDS - 1,
    2 * MEMORY_WORDS + 1,
    700,
];

/// Counts R1 down from 3 and halts, with a store, a load and jumps both ways.
const COUNTDOWN: [u16; 9] = [
    0x1103, 0x1201, 0x7020, 0x6112, 0x4120, 0x3320, 0xD108, 0xD003, HALT,
];

/// Every call, with operands.
fn every_call() -> Vec<Command> {
    vec![
        Command::New,
        Command::Load(COUNTDOWN.to_vec()),
        Command::Reset,
        Command::Clear,
        Command::Micro,
        Command::Step,
        Command::Run(3, vec![1]),
        Command::ClearHistory,
        Command::Direct,
        Command::DirectRun(3, vec![1]),
    ]
}

/// A script of lists.
pub fn script(number: usize) -> Vec<u8> {
    let mut draft = Draft::started(0);
    match number {
        0 => chosen().into_iter().for_each(|list| add(&mut draft, list)),
        1 => chosen()
            .iter()
            .for_each(|list| add(&mut draft, by_direct_engine(list))),
        _ => {
            let first = (number - 2) * IN_A_SCRIPT;
            (first..first + IN_A_SCRIPT).for_each(|list| any(&mut draft, list));
        }
    }
    let script = draft.bytes();
    assert!(script.len() <= LONGEST, "a longer script is malformed");
    script
}

/// A new machine, and the calls of a list.
fn add(draft: &mut Draft, calls: Vec<Command>) {
    draft.add(Command::New);
    calls.into_iter().for_each(|call| shown(draft, call));
}

/// A call, and the machine that it leaves.
fn shown(draft: &mut Draft, call: Command) {
    draft.add_all([call, Command::Dump]);
}

/// The lists that were chosen one by one.
fn chosen() -> Vec<Vec<Command>> {
    let mut random = Random::new(0x000C_A115);
    let mut lists = on_new_machines();
    lists.extend(ends());
    lists.extend(opcodes());
    lists.extend(wraps());
    lists.extend(long_traces());
    lists.extend(touched());
    lists.extend(budgets());
    lists.extend(breakpoints());
    lists.extend(within());
    lists.extend(images(&mut random));
    lists.extend(started_anew());
    lists
}

/// Each call on a new machine, and twice.
fn on_new_machines() -> Vec<Vec<Command>> {
    every_call()
        .into_iter()
        .flat_map(|call| [vec![call.clone()], vec![call.clone(), call]])
        .collect()
}

/// HALT and each unknown opcode, by every way of stepping; then every call on
/// the halted machine.
fn ends() -> Vec<Vec<Command>> {
    let mut lists = Vec::new();
    for word in [HALT, 0xEFFF, 0x0000, 0x0123, 0x5000, 0xF001] {
        for way in [vec![Command::Step], vec![Command::Micro; 4], vec![run(5)]] {
            let mut list = vec![Command::Load(vec![word])];
            list.extend(way);
            list.extend([Command::Micro, Command::Step, run(1)]);
            list.extend([Command::Direct, run(1).direct()]);
            lists.push(list);
        }
    }
    lists
}

/// Each opcode with something in its registers, tick by tick and whole.
fn opcodes() -> Vec<Vec<Command>> {
    let mut lists = Vec::new();
    for opcode in 0..16 {
        let program = vec![
            0x1112,
            0x1234,
            opcode << 12 | 0x0112,
            opcode << 12 | 0x0213,
            HALT,
        ];
        let load = Command::Load(program);
        let mut ticks = vec![load.clone(), Command::Step, Command::Step];
        ticks.extend(vec![Command::Micro; 8]);
        lists.push(ticks);
        lists.push(vec![
            load,
            Command::Step,
            Command::Step,
            Command::Step,
            run(9),
        ]);
    }
    lists
}

/// PC runs over the last address.
fn wraps() -> Vec<Vec<Command>> {
    let with_last = |word: u16| {
        let mut program = vec![0; CODE_WORDS];
        program[0] = JUMP | 0xFF;
        program[CODE_WORDS - 1] = word;
        Command::Load(program)
    };
    let mut lists = Vec::new();
    for word in [0x1105, 0x4000, HALT, 0x5000, JUMP | 0x80, 0xD1FF] {
        lists.push(vec![
            with_last(word),
            Command::Step,
            Command::Step,
            Command::Step,
        ]);
        lists.push(vec![with_last(word), run(6)]);
    }
    let mut ticks = vec![with_last(0x6123), Command::Step];
    ticks.extend(vec![Command::Micro; 7]);
    lists.push(ticks);
    lists
}

/// Traces that reach the most records and go past them, by runs, steps and ticks.
/// A jump to itself takes five ticks.
fn long_traces() -> Vec<Vec<Command>> {
    let load = Command::Load(vec![JUMP]);
    let mut crossing = vec![load.clone(), Command::Run(102, Vec::new()), Command::Reset];
    crossing.extend(vec![Command::Run(103, vec![0]); 2]);
    let mut ticks = vec![Command::Load(vec![IDLE; CODE_WORDS])];
    ticks.extend([Command::Run(u64::MAX, vec![0x65]), Command::Micro]);
    ticks.extend(vec![Command::Micro; 12]);
    vec![
        crossing,
        ticks,
        vec![load.clone(), run(103), Command::Micro],
        vec![load, run(400), Command::Step, Command::Reset, Command::Step],
        vec![Command::Load(vec![0x4500; CODE_WORDS]), run(300)],
    ]
}

/// All addresses, each written by its own store; some of them; and one
/// many times.
fn touched() -> Vec<Vec<Command>> {
    let stores = |address: fn(u16) -> u16| {
        let words = (0..CODE_WORDS as u16).map(|at| 0x4100 | address(at) & 0xFF);
        Command::Load(words.collect())
    };
    let own = stores(|at| at);
    let all = CODE_WORDS as u64;
    let behind = stores(|at| at + 255);
    let twice = stores(|at| at & 0xFE);
    vec![
        vec![own.clone(), run(all - 1), Command::Reset, run(all)],
        vec![
            own,
            Command::Run(1_000, vec![0]),
            Command::Step,
            Command::Step,
        ],
        vec![behind.clone(), Command::Run(1_000, vec![0]), Command::Step],
        vec![
            behind,
            Command::Run(1_000, vec![0x80]),
            Command::Clear,
            Command::Step,
        ],
        vec![twice, run(200)],
    ]
}

/// Budgets of none, one, around what a program takes to its end, and such as
/// are small once they are cut to 16 or 32 bits.
fn budgets() -> Vec<Vec<Command>> {
    let mut machine = Machine::new();
    machine.load_image(&COUNTDOWN);
    machine.run(u64::MAX, &[]);
    let exact = machine.instructions;
    let wide = [1 << 16, 1 << 32, (1 << 32) + 2, 1 << 63, u64::MAX];
    [0, 1, 2, exact - 1, exact, exact + 1]
        .into_iter()
        .chain(wide)
        .map(|budget| {
            let load = Command::Load(COUNTDOWN.to_vec());
            vec![load, run(budget), Command::Micro, run(budget)]
        })
        .collect()
}

/// Breakpoints that are hit, passed by, met at the first instruction, met
/// again, and given more than once.
fn breakpoints() -> Vec<Vec<Command>> {
    let sets: [Vec<u8>; 9] = [
        vec![0],
        vec![3],
        vec![8],
        vec![9],
        vec![0, 3, 8],
        vec![7, 3, 7, 3, 5],
        vec![200, 201, 255],
        (0..=255).collect(),
        (0..600u16).map(|at| at as u8).collect(),
    ];
    let mut lists = Vec::new();
    for set in sets {
        let stop = Command::Run(40, set);
        let mut list = vec![Command::Load(COUNTDOWN.to_vec())];
        list.extend(vec![stop; 5]);
        lists.push(list);
    }
    // The budget and the breakpoint at once: the breakpoint is looked at first.
    lists.push(vec![
        Command::Load(COUNTDOWN.to_vec()),
        Command::Run(3, vec![3]),
    ]);
    lists.push(vec![Command::Load(vec![JUMP]), Command::Run(1, vec![0])]);
    lists.push(vec![Command::Load(vec![JUMP]), Command::Run(0, vec![0])]);
    lists
}

/// Every number of ticks into an instruction, and then another call.
fn within() -> Vec<Vec<Command>> {
    let program = vec![0x3102, 0x4101, 0x6112, 0x3101, HALT];
    let mut lists = Vec::new();
    for ticks in 1..=6 {
        for call in [
            Command::Step,
            run(0),
            run(2),
            Command::Run(4, vec![1, 2]),
            Command::Reset,
        ] {
            let mut list = vec![Command::Load(program.clone())];
            list.extend(vec![Command::Micro; ticks]);
            list.extend([call, Command::Step]);
            lists.push(list);
        }
    }
    lists
}

/// Images of lengths of interest, loaded and stepped.
fn images(random: &mut Random) -> Vec<Vec<Command>> {
    LENGTHS
        .map(|length| {
            let words = (0..length).map(|_| random.word()).collect();
            vec![Command::Load(words), Command::Step]
        })
        .to_vec()
}

/// A machine that has run, and then starts anew in each way, or twice.
fn started_anew() -> Vec<Vec<Command>> {
    let load = |words: &[u16]| Command::Load(words.to_vec());
    let anew = [
        vec![Command::Reset],
        vec![Command::Clear],
        vec![Command::New],
        vec![load(&[0x1107, HALT])],
        vec![load(&[])],
        vec![Command::ClearHistory],
        vec![Command::Clear, Command::Reset],
        vec![Command::Reset, Command::Clear],
        vec![load(&[HALT; MEMORY_WORDS]), Command::Reset],
    ];
    anew.into_iter()
        .map(|calls| {
            let mut list = vec![load(&COUNTDOWN), run(30)];
            list.extend(calls);
            list.extend([Command::Step, run(4)]);
            list
        })
        .collect()
}

/// 3 to 20 calls by chance. Every list can be made alone, from its number.
fn any(draft: &mut Draft, number: usize) {
    let mut random = Random::new(0x0CA1_15F0_0000 + number as u64);
    let random = &mut random;
    draft.add(Command::New);
    for at in 0..3 + random.below(18) {
        let call = match at {
            0 if random.below(16) > 0 => Command::Load(programs::any(random)),
            1 if random.below(16) == 0 => run(200 + random.below(400) as u64),
            _ => any_call(random, draft),
        };
        shown(draft, call);
    }
}

/// A halted machine is often started anew, so that few calls find one.
fn any_call(random: &mut Random, draft: &Draft) -> Command {
    let halted = draft.model().machine().halted;
    match random.below(84) {
        0..=19 if halted => anew(random),
        0..=27 => Command::Micro,
        28..=47 => by_either_engine(random, Command::Step),
        48..=74 => {
            let run = any_run(random, draft);
            by_either_engine(random, run)
        }
        75 => Command::ClearHistory,
        _ => anew(random),
    }
}

fn anew(random: &mut Random) -> Command {
    match random.below(10) {
        0..=4 => Command::Reset,
        5..=7 => Command::Load(programs::any(random)),
        8 => Command::Clear,
        _ => Command::New,
    }
}

/// Most runs have a small budget and some breakpoints: one that spends its
/// budget leaves a halted machine.
fn any_run(random: &mut Random, draft: &Draft) -> Command {
    let budget = match random.below(40) {
        0 => 0,
        1 => 1,
        2..=25 => 2 + random.below(30),
        26..=36 => 30 + random.below(170),
        37 | 38 => 200 + random.below(600),
        _ => 1_000 + random.below(3_000),
    };
    Command::Run(budget as u64, any_breakpoints(random, draft))
}

/// Often near PC, where they are likely to be met.
fn any_breakpoints(random: &mut Random, draft: &Draft) -> Vec<u8> {
    let pc = draft.model().machine().pc;
    match random.below(6) {
        0 => Vec::new(),
        1 => vec![pc],
        2 | 3 => (0..1 + random.below(3)).map(|_| near(random, pc)).collect(),
        4 => (0..random.below(24)).map(|_| random.byte()).collect(),
        _ => (0..=255).filter(|_| random.below(8) == 0).collect(),
    }
}
