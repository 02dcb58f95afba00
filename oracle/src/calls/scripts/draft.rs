//! A script in the making.

use crate::calls::commands::Command;
use crate::calls::model::Model;

/// What was added so far, with the machine as its commands leave it.
pub struct Draft {
    bytes: Vec<u8>,
    model: Model,
}

impl Draft {
    pub fn started(store: usize) -> Self {
        Draft {
            bytes: (store as u32).to_be_bytes().to_vec(),
            model: Model::new(store),
        }
    }

    pub fn model(&self) -> &Model {
        &self.model
    }

    /// One command more, unless its answer is not fixed.
    pub fn add(&mut self, command: Command) {
        if self.model.fixes(&command) {
            self.bytes.extend(command.bytes());
            if command != Command::Dump {
                self.model.answer(&command);
            }
        }
    }

    pub fn add_all(&mut self, commands: impl IntoIterator<Item = Command>) {
        commands.into_iter().for_each(|command| self.add(command));
    }

    pub fn bytes(self) -> Vec<u8> {
        self.bytes
    }
}
