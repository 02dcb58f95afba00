//! The fixed sample of `massey_report`: some inputs of every kind with their
//! answers, small enough to be kept. Its programs are invented, and the first
//! says so in ASCII.

use crate::images::{self, PARTLY_USED};
use crate::programs::HALT;
use crate::record::Record;
use crate::report::guarded::Input;
use crate::report::inputs::count_loops::tides;
use crate::report::inputs::examples::{self, input, with_word_10};
use crate::report::inputs::{cleared, opcodes, pairs, random, refused};
use crate::report::program::{answer, bytes};
use crate::sizes::MEMORY_WORDS;

/// The program's own sample, for its folder, for a reader who may see owners 02 and 04.
/// Two words of what it says, with one of these owners each, are loaded, copied, added and
/// stored: the sum is shown, with both owners. A word with the owner 01 is put to it, and
/// the result is hidden. R1 gets no owner again, a jump leads over a hidden word, and one
/// on the copy, which the reader may see, is not taken. R9 is cleared, and HALT ends it.
///
/// The addition has an owner too, and is carried out. The copy has a digit that it does
/// not use, and so has the hidden word that is jumped over.
pub fn invented() -> Input {
    let program = [
        0x3110, 0x2F21, 0x3311, 0x6423, 0x4418, // R4 and word 18: owners 06, shown
        0x3512, 0xB645, 0x4619, // R6 and word 19: owners 07, hidden
        0x1107, 0x411A, // R1 and word 1A: none
        0xD00C, 0xEABC, // over the hidden word
        0x3713, 0xD20F, 0xC977, HALT, // R7: owners 03, hidden; R9: none
    ];
    let image = [&program[..], &images::saying_invented()].concat();
    let mut input = Input {
        breakpoints: vec![0x0B, 0x00, 0x0B],
        clearance: 0x06,
        ..input(&image, &[], 20)
    };
    for (address, owners) in INVENTED_OWNERS {
        input.owners[address] = owners;
    }
    input
}

/// Inside the clearance: the addition, two words and one behind the image. Outside: the
/// word that is jumped over, one word, and one behind the image. Word 13 has both.
const INVENTED_OWNERS: [(usize, u8); 8] = [
    (0x03, 0x04),
    (0x0B, 0x08),
    (0x10, 0x02),
    (0x11, 0x04),
    (0x12, 0x01),
    (0x13, 0x03),
    (0x20, 0x80),
    (0x21, 0x06),
];

/// What the program reads, once for each record.
pub fn inputs() -> Vec<Vec<u8>> {
    let mut inputs = vec![bytes(&invented())];
    inputs.extend(examples::all().iter().map(bytes));
    inputs.extend(served().iter().map(bytes));
    inputs.extend(refused());
    inputs
}

/// Each stop, MDR's owners behind a load, hidden values, runs by chance, words whose
/// texts may end in them, registers that are cleared or nearly so, numbers of hidden
/// words, and several readers.
fn served() -> Vec<Input> {
    let behind = opcodes::behind_a_load();
    let mut served: Vec<Input> = [24, 26, 28, 50].map(|at| behind[at].clone()).to_vec();
    served.extend([0, 1, 2, 3, 6, 7, 8].map(|program| pairs::value(program, 0x8001)));
    served.extend((0..5).map(|number| random::any(11 * number)));
    served.push(partly_used());
    served.extend(cleared::ROWS.map(cleared::row));
    served.extend(counted());
    served.extend(other_readers());
    served.extend(owners_at_the_end());
    served
}

/// The program's own sample for readers who may see nothing, less, more, and all.
pub fn other_readers() -> [Input; 4] {
    [0x00, 0x04, 0x07, 0xFF].map(|clearance| Input {
        clearance,
        ..invented()
    })
}

/// A word with four owners is loaded, and R1 is stored; the run ends behind either, or at
/// a jump on R1: for a reader who may see three of the owners, and for one who may see
/// all four. The second sees them with the value.
pub fn owners_at_the_end() -> Vec<Input> {
    let image = with_word_10(&[0x3110, 0x4111, 0xD104, HALT, HALT], 0x5EC7);
    let mut inputs = Vec::new();
    for clearance in [0xE1, 0xE3] {
        for budget in [1, 2, 3] {
            let mut input = input(&image, &[], budget);
            input.owners[0x10] = 0xC3;
            inputs.push(Input { clearance, ..input });
        }
    }
    inputs
}

/// Two words more are hidden, one of them by itself; the only hidden word is opened; a
/// long run hides words and opens some again; and all are hidden, so many that their
/// number has two bytes.
pub fn counted() -> [Input; 4] {
    let hiding = with_word_10(&[0x3110, 0x4111, 0x4102, HALT], 0x5EC7);
    let opening = with_word_10(&[0x1105, 0x4110, HALT], 0x5EC7);
    let all_hidden = Input {
        owners: vec![1; MEMORY_WORDS],
        ..input(&[HALT], &[], 9)
    };
    [
        input(&hiding, &[0x10], 9),
        input(&opening, &[0x10], 9),
        tides(1_000),
        all_hidden,
    ]
}

/// Each word whose text may end in it, first open and then hidden.
fn partly_used() -> Input {
    let hidden: Vec<u8> = (PARTLY_USED.len() as u8..)
        .take(PARTLY_USED.len())
        .collect();
    input(&[PARTLY_USED, PARTLY_USED].concat(), &hidden, 9)
}

/// Each refusal, alone and before the others, and inputs that are cut or longer
/// than their counts say.
fn refused() -> Vec<Vec<u8>> {
    let offences: [&[u8]; 6] = [&[1], &[3], &[4], &[1, 3, 4], &[3, 4], &[1, 4]];
    let mut refused: Vec<Vec<u8>> = offences
        .map(|refusals| bytes(&refused::offending(refusals)))
        .to_vec();
    let whole = bytes(&invented());
    let longer = [&whole[..], &[0]].concat();
    refused.extend([0, 1, 2, whole.len() - 1].map(|cut| whole[..cut].to_vec()));
    refused.extend([longer, vec![1, 1]]);
    refused
}

/// The kind of a record with a report.
pub const KIND: u8 = b'G';

/// The list for a replay: the question is an input behind its length in 2 bytes.
pub fn records() -> Vec<Record> {
    inputs().iter().map(|input| record(input)).collect()
}

/// Short ones, of which each has another answer.
pub fn short() -> Vec<Record> {
    refused()
        .iter()
        .take(3)
        .map(|input| record(input))
        .collect()
}

fn record(input: &[u8]) -> Record {
    let length = u16::try_from(input.len()).expect("an input of the sample is short");
    let question = [&length.to_be_bytes(), input].concat();
    Record::new(KIND, question, answer(input))
}
