//! An export laid out in rows, ready to be damaged.

use super::plans::any_lawful;
use super::writer::numbers;
use crate::chance::Chance;
use crate::rows::{self, Row};
use crate::rules::plan::Plan;

pub struct Export {
    pub plan: Plan,
    pub rows: Vec<Row>,
}

impl Export {
    /// Any lawful one.
    pub fn draw(chance: &mut Chance) -> Export {
        Export::of(any_lawful(chance))
    }

    pub fn of(plan: Plan) -> Export {
        let row = |string| Row::of(&numbers(string));
        let rows = plan.strings.iter().map(row).collect();
        Export { plan, rows }
    }

    pub fn text(&self) -> Vec<u8> {
        rows::text(&self.rows)
    }

    /// The place of any row, counted from 0.
    pub fn any_row(&self, chance: &mut Chance) -> usize {
        chance.index(self.rows.len())
    }

    /// As many rows as given, those that it has again and again. The periods stay the same, and so does H.
    pub fn set_length(&mut self, count: usize) {
        let rows = self.rows.iter().cycle().take(count).cloned();
        self.rows = rows.collect();
    }
}
