//! What each call refuses, and in which order.

use super::{summary_of, Call};
use finder::{Pair, Refusal};

fn refuse<T>(number: u8, place: usize) -> Result<T, Refusal> {
    Err(Refusal { number, place })
}

impl Call {
    /// Of a preparation.
    pub fn check_preparation(&self) -> Result<(), Refusal> {
        self.check_score()?;
        self.check_sets_len()
    }

    /// Of an update.
    pub fn check_update(&self) -> Result<(), Refusal> {
        self.check_score()?;
        self.check_sets_len()?;
        self.check_sets()?;
        if self.changed == 0 || usize::from(self.changed) > self.n() {
            return refuse(19, 0);
        }
        Ok(())
    }

    /// Of a question.
    pub fn check_question(&self) -> Result<(), Refusal> {
        self.check_score()?;
        self.check_theme()?;
        self.check_sets_len()?;
        self.check_sets()?;
        self.check_table()?;
        if self.summary != summary_of(&self.lent.sets) {
            return refuse(12, 0);
        }
        Ok(())
    }

    /// Of an explanation.
    pub fn check_explanation(&self) -> Result<(), Refusal> {
        self.check_score()?;
        self.check_theme()?;
        self.check_sets_len()?;
        self.check_sets()
    }

    /// Of a route.
    pub fn check_route(&self, pair: Pair) -> Result<(), Refusal> {
        self.check_score()?;
        self.check_theme()?;
        if self.holders(pair).is_none() {
            return refuse(13, 0);
        }
        if self.lent.route.len() < self.theme.len() {
            return refuse(14, 0);
        }
        Ok(())
    }

    /// Of a page, plain or quick.
    pub fn check_pages(&self, quick: bool) -> Result<(), Refusal> {
        self.check_score()?;
        self.check_theme()?;
        if quick {
            self.check_sets_len()?;
            self.check_sets()?;
            self.check_table()?;
        }
        self.check_page()
    }

    fn check_score(&self) -> Result<(), Refusal> {
        if self.tracks == 0 || self.tracks > 16 {
            return refuse(1, 0);
        }
        if self.cells.len() % self.tracks != 0 || self.n() == 0 || self.n() > 2048 {
            return refuse(2, 0);
        }
        match self.cells.iter().position(|c| (128..=254).contains(c)) {
            Some(at) => refuse(3, at),
            None => Ok(()),
        }
    }

    fn check_theme(&self) -> Result<(), Refusal> {
        if !(2..=32).contains(&self.theme.len()) {
            return refuse(4, 0);
        }
        match self.theme.iter().position(|p| *p > 127) {
            Some(at) => refuse(5, at),
            None => Ok(()),
        }
    }

    fn check_sets_len(&self) -> Result<(), Refusal> {
        if self.lent.sets.len() != self.n() - 1 {
            return refuse(6, 0);
        }
        Ok(())
    }

    fn check_sets(&self) -> Result<(), Refusal> {
        match self.lent.sets.iter().position(|s| *s > 4095) {
            Some(at) => refuse(7, at),
            None => Ok(()),
        }
    }

    fn check_table(&self) -> Result<(), Refusal> {
        if self.lent.table.len() != 4096 {
            return refuse(8, 0);
        }
        Ok(())
    }

    fn check_page(&self) -> Result<(), Refusal> {
        if self.lent.columns.is_empty() || self.lent.columns.len() != self.lent.shifts.len() {
            return refuse(9, 0);
        }
        let (lowest, highest) = self.shifts();
        let b = self.bookmark;
        if b.column == 0 || usize::from(b.column) > self.n() + 1 || !(lowest..=highest + 1).contains(&b.shift.into()) {
            return refuse(10, 0);
        }
        Ok(())
    }
}
