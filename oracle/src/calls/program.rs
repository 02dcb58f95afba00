//! Whole scripts of `massey_calls`, and what it must write for them.

use crate::calls::commands::{Command, Input};
use crate::calls::model::Model;
use crate::calls::totals::{Past, Totals};

/// The longest script, and the longest store, that are taken.
pub const LONGEST: usize = 262_144;
pub const LARGEST_STORE: usize = 65_536;

/// What is written where a script is malformed.
const MALFORMED: u8 = 0xFF;

/// One command of a script, with its answer. The last one of a malformed
/// script has no command.
pub struct Part {
    /// Where the command stands in the script.
    pub at: usize,
    pub command: Option<Command>,
    pub answer: Vec<u8>,
    /// The bus totals behind it; none where they are not counted.
    pub totals: Option<Totals>,
}

/// What is due for a script.
#[derive(Default)]
pub struct Due {
    /// All that the program writes.
    pub output: Vec<u8>,
    pub dumps: Vec<Dump>,
}

/// A dump among all that the program writes.
pub struct Dump {
    /// The command's place among the commands.
    pub command: usize,
    /// Where its first byte stands in the output.
    pub at: usize,
    pub totals: Option<Totals>,
}

/// What the program writes, with the bus totals that are due in its dumps.
pub fn due(script: &[u8]) -> Due {
    let mut due = Due::default();
    let mut command = 0;
    play(script, |part| {
        if part.command == Some(Command::Dump) {
            due.dumps.push(Dump {
                command,
                at: due.output.len(),
                totals: part.totals,
            });
        }
        due.output.extend(part.answer);
        command += 1;
    });
    due
}

/// All that the program writes.
pub fn output(script: &[u8]) -> Vec<u8> {
    due(script).output
}

/// The same, command by command.
pub fn parts(script: &[u8]) -> Vec<Part> {
    let mut parts = Vec::new();
    play(script, |part| parts.push(part));
    parts
}

fn play(script: &[u8], mut each: impl FnMut(Part)) {
    let mut input = Input(script);
    let Some(mut model) = started(&mut input, script.len()) else {
        return each(malformed(0));
    };
    let mut past = Past::none();
    while !input.is_empty() {
        let at = script.len() - input.0.len();
        let Some(command) = input.command() else {
            return each(malformed(at));
        };
        let answer = model.answer(&command);
        past.follow(&command, &answer, model.machine());
        each(Part {
            at,
            command: Some(command),
            answer,
            totals: past.totals(),
        });
    }
}

fn malformed(at: usize) -> Part {
    Part {
        at,
        command: None,
        answer: vec![MALFORMED],
        totals: None,
    }
}

/// The machine and its store as they are before the first command; none where
/// the script is malformed from its start.
fn started(input: &mut Input, length: usize) -> Option<Model> {
    let store = input.number(4)? as usize;
    let taken = length <= LONGEST && store <= LARGEST_STORE;
    taken.then(|| Model::new(store))
}
