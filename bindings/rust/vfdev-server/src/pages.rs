//! Pages of transmit registers that clients write without messages: who is offered one, and when they are looked at.

use crate::connection::Ended;
use crate::page::TransmitPage;
use crate::registers::Registers;
use crate::server::Server;
use std::io;
use std::time::Duration;
use tracing::{error, warn};

impl Server {
    /// The client that has come to a function is offered a page, where clients are. Where there can be none, it says all by messages.
    pub(crate) fn offer_page(&mut self, function: u8) {
        if !self.offers_pages {
            return;
        }
        let page = match TransmitPage::new() {
            Ok(page) => page,
            Err(error) => {
                warn!(function, %error, "there is no page for this client, which writes registers by messages");
                return;
            }
        };
        match self.card.offer_area(function) {
            Ok(()) => self.functions[usize::from(function)].page = Some(page),
            Err(fault) => error!(function, %fault, "the card offers no page"),
        }
    }

    /// A function's page and its registers, where it has one.
    pub(crate) fn page_of(&mut self, function: u8) -> Option<(&mut TransmitPage, Registers<'_>)> {
        let page = self.functions[usize::from(function)].page.as_mut()?;
        let registers = Registers::new(&mut self.card, function, &mut self.room);
        Some((page, registers))
    }

    /// Each page is looked at once. Tells whether there was anything.
    pub(crate) fn look_at_pages(&mut self) -> io::Result<bool> {
        let mut has_found = false;
        if !self.offers_pages {
            return Ok(false);
        }
        for function in 0..self.count() {
            match self.look_at(function) {
                Ok(has_changed) => has_found |= has_changed,
                Err(ended) => self.end(function, &ended)?,
            }
        }
        Ok(has_found)
    }

    fn look_at(&mut self, function: u8) -> Result<bool, Ended> {
        let Some((page, mut registers)) = self.page_of(function) else {
            return Ok(false);
        };
        let has_changed = page.look(&mut registers)?;
        if has_changed {
            self.functions[usize::from(function)].counters.looks += 1;
            if self.card.is_busy(function) {
                self.busy |= 1 << function;
            }
        }
        Ok(has_changed)
    }

    /// A function is reset by the administrator. What its guest has written before is said before.
    pub(crate) fn reset(&mut self, function: u8) {
        let looked = self.look_at(function).map(drop);
        if let Err(fault) = self.card.flr(function) {
            error!(function, %fault, "the function can't be reset");
        }
        let renewed = match self.page_of(function) {
            Some((page, mut registers)) => page.renew(&mut registers),
            None => Ok(()),
        };
        // (the card takes each message about a register of a client that has a page)
        if let Err(ended) = looked.and(renewed) {
            error!(function, %ended, "the page of a function that was reset isn't as its registers are");
        }
    }

    /// How long the program may sleep until it has to look at pages. `None`: there are none.
    pub(crate) fn until_look(&self) -> Option<Duration> {
        let pages = self
            .functions
            .iter()
            .filter_map(|function| function.page.as_ref());
        let mut given = pages.filter(|page| page.is_given()).peekable();
        given.peek()?;
        Some(self.looks.sleep(given.any(TransmitPage::is_any_on)))
    }
}
