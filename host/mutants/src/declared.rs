//! What the files of all crates declare, and a change may need to know.

use crate::callees::Function;
use crate::imports::Constant;
use crate::items::{Enum, File};

#[derive(Default)]
pub struct Declared {
    pub enums: Vec<Enum>,
    pub constants: Vec<Constant>,
    pub functions: Vec<Function>,
}

impl Declared {
    pub fn add(&mut self, file: &File) {
        let items = file.items.iter();
        self.enums.extend(file.enums.iter().cloned());
        self.constants
            .extend(items.clone().filter_map(|item| Constant::read(file, item)));
        self.functions
            .extend(items.filter_map(|item| Function::read(file, item)));
    }
}
