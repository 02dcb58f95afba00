//! The assembler: the image of a text, or the number of its refusal.

use crate::assembly::grammar::{self, Line};
use crate::assembly::lines;
use crate::sizes::LISTING_WORDS;

/// A line breaks the grammar.
pub const GRAMMAR: u8 = 11;
/// A label that is used stands on no line, or a label stands on two.
pub const LABELS: u8 = 12;
/// There are more words than an image has.
pub const WORDS: u8 = 13;

/// The image that a text gives. The first faulty line decides, by its grammar
/// before its number of words; labels are looked at behind all lines.
pub fn assemble(text: &[u8]) -> Result<Vec<u16>, u8> {
    let mut labelled = Vec::new();
    for line in lines::of(text) {
        match grammar::line(line).ok_or(GRAMMAR)? {
            Line::Free => {}
            Line::Labelled(..) if labelled.len() == LISTING_WORDS => return Err(WORDS),
            Line::Labelled(label, instruction) => labelled.push((label, instruction)),
        }
    }
    let labels: Vec<Option<&[u8]>> = labelled.iter().map(|line| line.0).collect();
    if has_doubled(&labels) {
        return Err(LABELS);
    }
    let words = labelled.iter().map(|(_, instruction)| {
        let address = instruction
            .refers
            .map_or(Some(0), |it| address(&labels, it));
        Some(instruction.word | address?)
    });
    words.collect::<Option<Vec<u16>>>().ok_or(LABELS)
}

/// Whether a label stands on two lines. It need not be used.
fn has_doubled(labels: &[Option<&[u8]>]) -> bool {
    let names: Vec<&[u8]> = labels.iter().copied().flatten().collect();
    let is_doubled = |(at, name): (usize, &&[u8])| names[..at].contains(name);
    names.iter().enumerate().any(is_doubled)
}

/// The address of the line on which a label stands: each of these lines has one,
/// from 0 on.
fn address(labels: &[Option<&[u8]>], name: &[u8]) -> Option<u16> {
    let address = labels.iter().position(|label| *label == Some(name))?;
    Some(address as u16)
}
