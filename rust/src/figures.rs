// The day's figures in their own words.

use crate::{
    Level, FIGURES, FIGURE_ANSWERED, FIGURE_END, FIGURE_LISTS, FIGURE_LOST, FIGURE_LOST_BY_LEVEL,
    FIGURE_RELEASED, FIGURE_SEIZED, FIGURE_START,
};

/// The day's figures: what the lists did that were added to them by [`Route::figures`](crate::Route::figures). From zeros they close:
/// [`start`](Figures::start) and [`seized`](Figures::seized) together are [`released`](Figures::released), [`lost`](Figures::lost) and
/// [`end`](Figures::end) together.
#[derive(Clone, Copy, Debug, PartialEq, Eq, Hash)]
pub struct Figures {
    totals: [u64; FIGURES],
}

impl Figures {
    /// Before the first list: every total is zero.
    #[must_use]
    pub const fn new() -> Figures {
        Figures {
            totals: [0; FIGURES],
        }
    }

    /// Totals that were kept, to which more lists are to be added.
    #[must_use]
    pub const fn from_totals(totals: [u64; FIGURES]) -> Figures {
        Figures { totals }
    }

    /// The totals, by the places that [`figures()`](crate::figures()) has them at.
    #[must_use]
    pub const fn totals(&self) -> &[u64; FIGURES] {
        &self.totals
    }

    pub(crate) fn totals_mut(&mut self) -> &mut [u64] {
        &mut self.totals
    }

    /// How many lists were added.
    #[must_use]
    pub const fn lists(&self) -> u64 {
        self.totals[FIGURE_LISTS]
    }

    /// How many holders stood in the table before each list, over all lists.
    #[must_use]
    pub const fn start(&self) -> u64 {
        self.totals[FIGURE_START]
    }

    /// How many set-ups got a circuit.
    #[must_use]
    pub const fn seized(&self) -> u64 {
        self.totals[FIGURE_SEIZED]
    }

    /// How many holders were released.
    #[must_use]
    pub const fn released(&self) -> u64 {
        self.totals[FIGURE_RELEASED]
    }

    /// How many holders lost their circuit.
    #[must_use]
    pub const fn lost(&self) -> u64 {
        self.totals[FIGURE_LOST]
    }

    /// How many holders stood in the table after each list, over all lists.
    #[must_use]
    pub const fn end(&self) -> u64 {
        self.totals[FIGURE_END]
    }

    /// How many holders of the loser's level lost their circuit to a set-up of the taker's.
    #[must_use]
    pub const fn lost_by_level(&self, taker: Level, loser: Level) -> u64 {
        let place = 5 * taker.number() as usize + loser.number() as usize;
        self.totals[FIGURE_LOST_BY_LEVEL + place]
    }

    /// How many events were answered by this number; none by one above 63.
    #[must_use]
    pub const fn answered(&self, number: u8) -> u64 {
        let place = FIGURE_ANSWERED + number as usize;
        if place < FIGURES {
            self.totals[place]
        } else {
            0
        }
    }
}

/// Before the first list.
impl Default for Figures {
    fn default() -> Figures {
        Figures::new()
    }
}
