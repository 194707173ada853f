// The table that a program reads from a file, or the only line that the program writes where there is none or the check refuses it.

use std::fs;

use crate::independent::{self, Check, NOWHERE};

pub fn read(name: &str) -> Result<Vec<u8>, String> {
    let table = fs::read(name).map_err(|_| "no table\n".to_string())?;
    match independent::check(&table) {
        Check { number: 0, .. } => Ok(table),
        Check { number, record: NOWHERE } => Err(format!("bad table {}\n", number)),
        Check { number, record } => Err(format!("bad table {} {}\n", number, record)),
    }
}
