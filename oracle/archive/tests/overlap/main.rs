//! The archive's calls with an input and an output that overlap: a call answers
//! and writes what it does with buffers of their own, wherever they lie. Bytes
//! past what it writes are those that were there, the input's among them.

mod driver;
mod inputs;
mod places;

use driver::{ask, Answer, Call, Question};
use inputs::Refused;
use oracle::assembly::model;
use oracle::images;
use oracle::lent;
use oracle::report::bytes::LONGEST;
use oracle::report::program;
use oracle::sizes::TEXT;
use oracle::words::disassembly;

/// How many differences of one input are shown.
const SHOWN: usize = 12;

/// A call with an input and an output's length, and what is due for it.
struct Case {
    name: String,
    call: Call,
    input: Vec<u8>,
    out_len: usize,
    number: i64,
    written: Vec<u8>,
    /// Values of words that must not show.
    hidden: Vec<u16>,
}

/// The case as a call with separate buffers has it.
fn separate(name: &str, call: Call, input: &[u8], out_len: usize) -> Case {
    let mut out = lent::pattern(out_len);
    let number = match call {
        Call::Disassemble => archive::disassemble(images::whole_words(input)[0], &mut out),
        Call::Listing => archive::listing(input, &mut out),
        Call::Assemble => archive::assemble(input, &mut out),
        Call::Report => archive::report(input, &mut out),
    };
    let length = match call {
        Call::Disassemble if number > 0 => TEXT,
        _ => number.max(0) as usize,
    };
    Case {
        name: format!("{name}, {out_len} bytes lent"),
        call,
        input: input.to_vec(),
        out_len,
        number,
        written: out[..length].to_vec(),
        hidden: Vec::new(),
    }
}

/// What is wrong with an answer.
struct Difference {
    place: isize,
    number: i64,
    /// The first byte that differs, counted from the output's start.
    from: isize,
    /// How many hidden values show in what was written.
    shown: usize,
}

/// Asks for every place of the input.
fn differences(case: &Case) -> Vec<Difference> {
    let places = places::all(case.input.len(), case.out_len);
    let question = |place: &isize| places::question(case.call, &case.input, case.out_len, *place);
    let questions: Vec<Question> = places.iter().map(question).collect();
    let answers = ask(&questions);
    let asked = places.iter().zip(questions.iter().zip(&answers));
    asked
        .filter_map(|(place, (question, answer))| difference(case, *place, question, answer))
        .collect()
}

/// A right answer shows no hidden value, since none shows with separate buffers.
fn difference(
    case: &Case,
    place: isize,
    question: &Question,
    answer: &Answer,
) -> Option<Difference> {
    let mut due = question.region.clone();
    let start = question.out.start;
    due[start..start + case.written.len()].copy_from_slice(&case.written);
    if answer.number == case.number && answer.region == due {
        return None;
    }
    let written = &answer.region[start..start + answer.number.max(0) as usize];
    let shown = case.hidden.iter().filter(|word| shows(written, **word));
    let pairs = answer.region.iter().zip(&due);
    let same = pairs.take_while(|(found, due)| found == due).count();
    Some(Difference {
        place,
        number: answer.number,
        from: same as isize - start as isize,
        shown: shown.count(),
    })
}

/// Whether a value shows, as two bytes or as a text has it.
fn shows(bytes: &[u8], word: u16) -> bool {
    let digits = format!("{word:04X}");
    let as_bytes = bytes.windows(2).any(|two| two == word.to_be_bytes());
    as_bytes || bytes.windows(4).any(|four| four == digits.as_bytes())
}

/// Fails where a place differs, and says for each case where.
fn all_same(cases: &[Case]) {
    let told: String = cases.iter().map(told).collect();
    assert!(told.is_empty(), "{told}");
}

/// The differences of a case, none where it has none.
fn told(case: &Case) -> String {
    let differences = differences(case);
    if differences.is_empty() {
        return String::new();
    }
    let showing = differences.iter().filter(|it| it.shown > 0).count();
    let (name, all) = (&case.name, differences.len());
    let mut told = format!("\n{name}: {all} places differ, {showing} show hidden values");
    for it in differences.iter().take(SHOWN) {
        told += &format!(
            "\n    input at {}: answered {}, due {}; differs from byte {} on; {} values show",
            it.place, it.number, case.number, it.from, it.shown
        );
    }
    told
}

/// The cases of inputs that are refused so.
fn refused(call: Call, inputs: &[Refused]) -> Vec<Case> {
    let case = |(number, input, out_len): &Refused| {
        let case = separate(&format!("refused {number}"), call, input, *out_len);
        assert_eq!(case.number, -number);
        case
    };
    inputs.iter().map(case).collect()
}

/// A report's case, held to the model before anything overlaps.
fn report(name: &str, input: &[u8], out_len: usize) -> Case {
    let case = separate(name, Call::Report, input, out_len);
    assert_eq!(case.written, program::answer(input), "{name}");
    case
}

#[test]
fn reports() {
    let cases: Vec<Case> = inputs::reports()
        .iter()
        .flat_map(|(name, input)| {
            let bytes = program::bytes(input);
            [LONGEST, LONGEST + 2_000].map(|out_len| Case {
                hidden: inputs::hidden(input),
                ..report(name, &bytes, out_len)
            })
        })
        .collect();
    for case in &cases {
        let shown = case.hidden.iter().any(|word| shows(&case.written, *word));
        assert!(!shown, "{}: a right report has a hidden value", case.name);
        let there = |word: &u16| shows(&case.input, *word);
        assert!(case.hidden.iter().all(there), "{}: none to see", case.name);
    }
    all_same(&cases);
}

#[test]
fn refused_reports() {
    all_same(&refused(Call::Report, &inputs::refused_reports()));
}

#[test]
fn listings() {
    let cases: Vec<Case> = inputs::images()
        .iter()
        .flat_map(|words| {
            let listing = disassembly::disassemble_image(words).into_bytes();
            [0, 600].map(|more| {
                let name = format!("{} words", words.len());
                let image = images::bytes(words);
                let case = separate(&name, Call::Listing, &image, listing.len() + more);
                assert_eq!(case.written, listing, "{name}");
                case
            })
        })
        .collect();
    all_same(&cases);
}

#[test]
fn refused_listings() {
    all_same(&refused(Call::Listing, &inputs::refused_listings()));
}

#[test]
fn assembled_texts() {
    let cases: Vec<Case> = inputs::texts()
        .iter()
        .flat_map(|text| {
            let words = model::assemble(text).expect("it is taken");
            let image = images::bytes(&words);
            [0, 600].map(|more| {
                let name = format!("a text of {} bytes", text.len());
                let case = separate(&name, Call::Assemble, text, image.len() + more);
                assert_eq!(case.number, image.len() as i64, "{name}");
                assert_eq!(case.written, image, "{name}");
                case
            })
        })
        .collect();
    all_same(&cases);
}

#[test]
fn refused_texts() {
    all_same(&refused(Call::Assemble, &inputs::refused_texts()));
}

/// The call reads no bytes: its word is taken from the output before the call.
#[test]
fn texts() {
    let cases: Vec<Case> = (0..=u16::MAX)
        .step_by(257)
        .map(|word| {
            let text = disassembly::disassemble(word);
            let case = separate(&text, Call::Disassemble, &word.to_be_bytes(), 40);
            assert_eq!(case.written[..text.len()], *text.as_bytes());
            case
        })
        .collect();
    all_same(&cases);
}
