//! Days in periods: an intraday session, or a try of one, anywhere among the trades.

use super::Market;

impl Market {
    /// Series are few and short-lived, so that on many days none is live before the first listing.
    pub(super) fn day_of_periods(&mut self) {
        if self.random.one_in(2) {
            self.row("I", &[]);
        }
        self.list_enough();
        for _ in 0..self.random.between(2, 5) {
            self.events();
            match self.random.below(6) {
                0 | 1 => self.row("I", &[]),
                2 => self.session("I"),
                3 => self.row("V", &[]),
                _ => {}
            }
        }
        self.events();
        self.session("V");
    }
}
