// A route over a lent table.

use crate::{
    check, event, figures, lamps, list, Answer, Check, Done, Event, Figures, LampsReading, Refusal,
    ANSWER_NUMBER, ANSWER_SIZE, NO_PLACE,
};

/// A route over a lent table, which was valid when it was lent and stays so.
#[derive(Debug)]
pub struct Route<'a> {
    table: &'a mut [u8],
}

impl<'a> Route<'a> {
    /// Borrows a table of 1 to 256 circuits, where [`check`] finds it valid; [`Refusal::BadRecord`] where it finds a bad record. A table of zeros
    /// is a route with every circuit free.
    pub fn new(table: &'a mut [u8]) -> Result<Route<'a>, Refusal> {
        let Check { number, record } = check(table);
        Refusal::unless_done(number, record)?;
        Ok(Route { table })
    }

    /// Applies an event: what it did, or why it was refused and the route is as it was.
    pub fn apply(&mut self, what: &Event) -> Result<Done, Refusal> {
        let octets = what.to_octets()?;
        let mut answer = [0; ANSWER_SIZE];
        let number = event(self.table, &octets, &mut answer);
        debug_assert_eq!(
            number, answer[ANSWER_NUMBER],
            "every length is right, so that the answer is written"
        );
        Answer::from_octets(&answer).result()
    }

    /// Applies a list of 0 to 4,096 events in octets, with an answer for each; [`Refusal::WrongLength`] where a length is wrong. It gives
    /// what its events applied one by one give, and looks through the table once.
    pub fn list(&mut self, events: &[u8], answers: &mut [u8]) -> Result<(), Refusal> {
        Refusal::unless_done(list(self.table, events, answers), NO_PLACE)
    }

    /// Applies a list as [`list`](Route::list) does, and adds it to the day's figures; [`Refusal::TooManyLists`] where they take no more, and
    /// then nothing is done.
    pub fn figures(
        &mut self,
        events: &[u8],
        answers: &mut [u8],
        day: &mut Figures,
    ) -> Result<(), Refusal> {
        let number = figures(self.table, events, answers, day.totals_mut());
        Refusal::unless_done(number, NO_PLACE)
    }

    /// The lamps of the free circuits; the number in them is 0.
    pub fn lamps(&self) -> LampsReading {
        lamps(self.table)
    }

    /// The table as it stands.
    #[must_use]
    pub fn table(&self) -> &[u8] {
        self.table
    }
}
