//! One question and the answer that is due, in the form that the replay
//! programs read: length 2 (of what follows), kind 1, question, answer. Numbers
//! are high byte first.

#[derive(Clone)]
pub struct Record {
    pub kind: u8,
    pub question: Vec<u8>,
    pub answer: Vec<u8>,
    /// Whether the answer stands before the question: then the question needs
    /// no length of its own, since the record ends with it.
    pub answer_first: bool,
}

impl Record {
    /// The answer behind the question.
    pub fn new(kind: u8, question: Vec<u8>, answer: Vec<u8>) -> Self {
        Record {
            kind,
            question,
            answer,
            answer_first: false,
        }
    }

    /// The record as it stands in a list.
    pub fn bytes(&self) -> Vec<u8> {
        let (first, second) = match self.answer_first {
            true => (&self.answer, &self.question),
            false => (&self.question, &self.answer),
        };
        framed(&[&[self.kind], &first[..], &second[..]].concat())
    }
}

/// A body behind its length.
pub fn framed(body: &[u8]) -> Vec<u8> {
    let length = u16::try_from(body.len()).expect("a record's length has two bytes");
    [&length.to_be_bytes(), body].concat()
}

/// A whole list, as the program reads it.
pub fn list_bytes(records: &[Record]) -> Vec<u8> {
    records.iter().flat_map(Record::bytes).collect()
}
