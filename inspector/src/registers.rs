//! The registers: the image's, with what differs from the replayed ones.

use crate::chain::unlike;
use crate::image::{Digest, Image, FIRST_COMPARED, REGISTERS};
use crate::judge::Registers;

pub struct Row {
    pub number: usize,
    pub value: Digest,
    /// What it is for.
    pub role: &'static str,
    /// The replayed value, where there is one and it is another.
    pub replayed: Option<Digest>,
    pub difference: Option<String>,
}

impl Row {
    /// Neither holds anything.
    pub fn is_plain_zero(&self) -> bool {
        self.value == [0; 48] && self.replayed.is_none()
    }

    pub fn name(&self) -> String {
        format!("PCR{}", self.number)
    }
}

/// All registers; PCR0 and PCR1 are not compared.
pub fn registers(image: &Image, replayed: Option<&Registers>) -> Vec<Row> {
    let numbers = 0..REGISTERS;
    numbers
        .map(|number| {
            let value = image.register(number);
            let other = number
                .checked_sub(FIRST_COMPARED)
                .and_then(|at| replayed.map(|registers| registers[at]))
                .filter(|other| *other != value);
            Row {
                number,
                value,
                role: role(number),
                replayed: other,
                difference: other.and_then(|other| unlike(&value, &other)),
            }
        })
        .collect()
}

fn role(number: usize) -> &'static str {
    match number {
        0 | 1 => "not compared",
        2 => "current: the running software",
        3 => "journey: all software since the cold boot",
        31 => "the stashed measurements",
        _ => "a part maker's",
    }
}
