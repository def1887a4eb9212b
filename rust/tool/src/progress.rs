//! A progress bar on standard error, if that is a terminal.

use std::io::{self, IsTerminal, Write};

/// The bar's width in characters.
const WIDTH: u64 = 40;

/// How far a piece of work is.
pub struct Progress {
    what: &'static str,
    total: u64,
    done: u64,
    /// The filled part that is shown; none if nothing is shown.
    shown: Option<u64>,
}

impl Progress {
    /// Work that has so many parts.
    pub fn new(what: &'static str, total: u64) -> Progress {
        let visible = io::stderr().is_terminal() && total > 0;
        let mut progress = Progress {
            what,
            total,
            done: 0,
            shown: visible.then_some(WIDTH + 1),
        };
        progress.show();
        progress
    }

    /// One more part is done.
    pub fn advance(&mut self) {
        self.advance_by(1);
    }

    /// So many more parts are done.
    pub fn advance_by(&mut self, parts: u64) {
        self.done += parts;
        self.show();
    }

    /// Draws the bar again if it grew.
    fn show(&mut self) {
        let filled = self.done.min(self.total) * WIDTH / self.total.max(1);
        if self.shown.is_none_or(|shown| shown == filled) {
            return;
        }
        self.shown = Some(filled);
        let bar: String = (0..WIDTH)
            .map(|i| if i < filled { '#' } else { '.' })
            .collect();
        // A bar that cannot be shown is no reason to stop.
        let _ = write!(io::stderr(), "\r{} [{bar}]", self.what);
    }
}

impl Drop for Progress {
    /// Takes the bar away, so that what follows starts on a line of its own.
    fn drop(&mut self) {
        if self.shown.is_some() {
            let _ = write!(io::stderr(), "\r\x1b[K");
        }
    }
}
