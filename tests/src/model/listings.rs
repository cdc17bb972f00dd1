//! Listings of one table in a column order.

use super::tables;
use super::terms::*;
use super::{Fault, Model};
use crate::store::Table;

/// "The six column orders 0 to 5 are SPO, SOP, PSO, POS, OSP, OPS". They are spelled here, and not
/// worked out: document 02 puts a formula in the place of the table, and "each listing is as before".
const ORDERS: [&str; 6] = ["SPO", "SOP", "PSO", "POS", "OSP", "OPS"];

/// The word of a row that a column's letter stands for.
fn column(row: Triple, letter: char) -> u32 {
    match letter {
        'S' => row[0],
        'P' => row[1],
        _ => row[2],
    }
}

impl Model {
    /// "A listing of a table has its rows' words put in that order and sorted ascending", unless 1
    /// or 12 refuses.
    pub fn list(&self, table: Table, words: &[u32], order: u32) -> Result<Graph, u32> {
        let rows = tables::read_rows(table, words).ok_or(1u32)?;
        let mut orders = ORDERS;
        if self.fault == Some(Fault::OrderRotated) {
            orders[2] = "POS";
        }
        let order = orders.get(order as usize).ok_or(12u32)?;
        let put = |row: Triple| -> Triple {
            let words: Vec<u32> = order.chars().map(|c| column(row, c)).collect();
            [words[0], words[1], words[2]]
        };
        Ok(rows.into_iter().map(put).collect())
    }
}
