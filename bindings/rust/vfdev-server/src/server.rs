//! The loop: one thread, which waits for sockets, hands their messages to the card, does its orders, and sends what it answers.
//!
//! No client holds up another one: nothing here waits but for all of them together, and in one turn each has [`MOST_MESSAGES`] messages
//! handled at most, its transmit queues served once, and its vectors signalled once, where they have rested.

use crate::apart::Apart;
use crate::config::Settings;
use crate::connection::{Connection, Ended};
use crate::counters::{self, Shown, Totals};
use crate::directory::{listen, open_directory, Place, Unusable};
use crate::function::Function;
use crate::looks::{Looks, AWAKE};
use crate::offloads;
use crate::options::Options;
use crate::os::{self, Alarm, Interest, MappedCard, Patience, Poller};
use crate::polling::Polling;
use crate::registers::Registers;
use crate::signals::{drain, Signals};
use crate::source::Source;
use crate::wire::{Arrived, NoWire, Wire};
use std::fmt;
use std::io::{self, Write};
use std::os::fd::{AsFd, OwnedFd};
use std::os::unix::net::UnixListener;
use std::path::PathBuf;
use std::time::{Duration, Instant};
use tracing::{debug, error, info, warn};
use vfdev::card::{CardFault, NotAdmitted, Order, Step, ROOM, VECTORS};
use vfdev::page::Touched;
use vfdev::{Counts, MOST_FRAME};

/// How many messages of one client are handled in a turn at most.
pub const MOST_MESSAGES: usize = 32;
/// How many frames from the wire are handled in a turn at most.
pub const MOST_WIRE_FRAMES: usize = 64;

/// Why the server can't start, or go on.
#[derive(Debug)]
#[non_exhaustive]
pub enum Failed {
    /// The folder or a socket can't be used.
    Unusable(Unusable),
    /// There is no wire.
    Wire(NoWire),
    /// The card can't be made.
    Card(CardFault),
    /// The policy of the function of that name is refused.
    Policy(String, NotAdmitted),
    /// The operating system refuses something.
    System(io::Error),
}

impl fmt::Display for Failed {
    fn fmt(&self, f: &mut fmt::Formatter<'_>) -> fmt::Result {
        match self {
            Failed::Unusable(unusable) => unusable.fmt(f),
            Failed::Wire(no_wire) => no_wire.fmt(f),
            Failed::Card(fault) => write!(f, "the card can't be made: {fault}"),
            Failed::Policy(name, why) => write!(f, "the policy of '{name}' is refused: {why}"),
            Failed::System(error) => error.fmt(f),
        }
    }
}

impl std::error::Error for Failed {}

impl From<Unusable> for Failed {
    fn from(unusable: Unusable) -> Failed {
        Failed::Unusable(unusable)
    }
}

impl From<NoWire> for Failed {
    fn from(no_wire: NoWire) -> Failed {
        Failed::Wire(no_wire)
    }
}

impl From<CardFault> for Failed {
    fn from(fault: CardFault) -> Failed {
        Failed::Card(fault)
    }
}

impl From<io::Error> for Failed {
    fn from(error: io::Error) -> Failed {
        Failed::System(error)
    }
}

/// The server: a card, and the sockets and files around it.
#[derive(Debug)]
pub struct Server {
    pub(crate) card: MappedCard,
    pub(crate) functions: Vec<Function>,
    pub(crate) settings: Settings,
    pub(crate) config: Option<PathBuf>,
    // the functions whose drivers are still to be told of a change, a bit for each
    pub(crate) untold: u64,
    // whether clients are offered pages of registers, when it looks there while it sleeps, and room for the card's answers about them
    pub(crate) offers_pages: bool,
    pub(crate) looks: Looks,
    pub(crate) room: Box<[u8; ROOM]>,
    wire: Option<Wire>,
    metrics: UnixListener,
    metrics_place: Place,
    poller: Poller,
    polling: Polling,
    signals: Signals,
    alarm: Alarm,
    // where files go that clients sent and nobody wants
    apart: Apart,
    // the functions whose transmit queues may have more, a bit for each
    pub(crate) busy: u64,
    // when the first vector that waits has rested
    due: Option<Instant>,
    // the function that comes first in this turn
    first: usize,
    // room for a frame that leaves
    frame: Box<[u8; MOST_FRAME]>,
    arrived: Arrived,
    totals: Totals,
}

impl Server {
    /// A server with its sockets in place and its functions admitted.
    ///
    /// # Errors
    /// Why it can't start.
    pub fn new(options: &Options, settings: Settings) -> Result<Server, Failed> {
        let (ids, default_function) = (&settings.ids, settings.default_function);
        let offloads = options.offloads.unwrap_or(settings.offloads);
        let mut card = MappedCard::new(
            options.functions,
            ids,
            default_function,
            options.frame,
            offloads,
        )?;
        info!(offloads = %offloads::shown(offloads), "the card is made");
        for (function, grant) in (0u8..).zip(&settings.grants) {
            if let Some(grant) = grant {
                let refused = |why| Failed::Policy(grant.name.clone(), why);
                card.admit(function, &grant.policy).map_err(refused)?;
            }
        }
        if options.transmit_page {
            os::sleep_exactly()?;
        }
        open_directory(&options.dir)?;
        let wire = options.wire.as_ref().map(Wire::open).transpose()?;
        let functions = (0..options.functions)
            .map(|number| Function::new(&options.dir, number))
            .collect::<Result<Vec<_>, _>>()?;
        let (metrics, metrics_place) = listen(&options.dir.join("metrics"))?;
        let server = Server {
            card,
            functions,
            settings,
            config: options.config.clone(),
            untold: 0,
            offers_pages: options.transmit_page,
            looks: Looks::default(),
            room: Box::new([0; ROOM]),
            wire,
            metrics,
            metrics_place,
            poller: Poller::new()?,
            polling: Polling::new(awake(options)),
            signals: Signals::new()?,
            alarm: Alarm::new()?,
            apart: Apart::default(),
            busy: 0,
            due: None,
            first: 0,
            frame: Box::new([0; MOST_FRAME]),
            arrived: Arrived::new(MOST_WIRE_FRAMES),
            totals: Totals::default(),
        };
        server.watch_all()?;
        Ok(server)
    }

    fn watch_all(&self) -> io::Result<()> {
        for (number, function) in (0u8..).zip(&self.functions) {
            self.watch(&function.listener, Source::Listener(number))?;
        }
        if let Some(wire) = &self.wire {
            self.watch(wire, Source::Wire)?;
        }
        self.watch(&self.metrics, Source::Metrics)?;
        self.watch(&self.signals.reload, Source::Reload)?;
        self.watch(&self.signals.stop, Source::Stop)
    }

    fn watch(&self, file: impl AsFd, source: Source) -> io::Result<()> {
        self.poller.watch(file, source.number(), Interest::Read)
    }

    /// Serves until it is told to stop, and then lets all guests go.
    ///
    /// # Errors
    /// Why it can't go on.
    pub fn run(&mut self) -> Result<(), Failed> {
        let mut ready = Vec::new();
        loop {
            let was_busy = self.busy != 0;
            let may_sleep = !was_busy && self.polling.is_over();
            self.poller.wait(&mut ready, self.patience(may_sleep))?;
            self.totals.turns += 1;
            for source in ready.iter().filter_map(|number| Source::of(*number)) {
                match source {
                    Source::Client(function) => self.hear(function)?,
                    Source::Listener(function) => self.welcome(function)?,
                    Source::Wire => self.take_from_wire()?,
                    Source::Metrics => self.tell_counters()?,
                    Source::Reload => {
                        drain(&self.signals.reload);
                        self.reload()?;
                    }
                    Source::Stop => {
                        self.stop()?;
                        return Ok(());
                    }
                }
            }
            let has_found = self.look_at_pages()?;
            self.serve_queues()?;
            self.signal_vectors()?;
            self.pace(may_sleep, was_busy || has_found || !ready.is_empty())?;
        }
    }

    // How long it may be waited for clients: a vector that waits is signalled once it has rested, and pages are looked at.
    fn patience(&self, may_sleep: bool) -> Patience {
        if !may_sleep {
            return Patience::None;
        }
        let rested = |due: Instant| due.saturating_duration_since(Instant::now());
        match (self.due.map(rested), self.until_look()) {
            (None, None) => Patience::Endless,
            (Some(time), None) | (None, Some(time)) => Patience::For(time),
            (Some(one), Some(two)) => Patience::For(one.min(two)),
        }
    }

    // A turn is over, in which it slept or not, and had something to do or not.
    fn pace(&mut self, has_slept: bool, had_work: bool) -> io::Result<()> {
        match had_work {
            true => {
                self.polling.begin_anew();
                self.looks.begin_anew();
            }
            false if has_slept => {
                let is_alarm = self.until_look().is_none() || self.looks.is_long();
                self.looks.lengthen();
                if is_alarm {
                    self.alarm.rest()?;
                }
            }
            // (who has something to say may want this processor for it)
            false => std::thread::yield_now(),
        }
        Ok(())
    }

    // All guests go. The sockets go with their functions.
    fn stop(&mut self) -> io::Result<()> {
        for function in 0..self.count() {
            if self.functions[usize::from(function)].client.is_some() {
                self.end(function, &Ended::Stopped)?;
            }
        }
        Ok(())
    }

    pub(crate) fn count(&self) -> u8 {
        u8::try_from(self.functions.len()).unwrap_or(u8::MAX)
    }

    /// What a function is called.
    pub(crate) fn name(&self, function: u8) -> String {
        match self.settings.grants.get(usize::from(function)) {
            Some(Some(grant)) => grant.name.clone(),
            _ => format!("vf{function}"),
        }
    }

    // A client waits at a vacant function's socket. Others that wait there stay until it has gone.
    fn welcome(&mut self, function: u8) -> io::Result<()> {
        let place = usize::from(function);
        let accepted = self.functions[place].listener.accept();
        let client = match accepted.and_then(|(socket, _)| Connection::new(socket)) {
            Ok(client) => client,
            Err(error) if is_passing(&error) => return Ok(()),
            Err(error) => {
                // told once: the socket is watched again after the next reload
                error!(function, %error, "no client can be accepted until SIGHUP");
                return self.poller.forget(&self.functions[place].listener);
            }
        };
        if let Err(fault) = self.card.attach(function) {
            error!(function, %fault, "a client is turned away: the card refuses it");
            return Ok(());
        }
        if let Err(error) = self.watch(&client, Source::Client(function)) {
            error!(function, %error, "a client is turned away: it can't be watched");
            let _ = self.card.detach(function);
            return Ok(());
        }
        self.poller.forget(&self.functions[place].listener)?;
        self.offer_page(function);
        self.functions[place].client = Some(client);
        self.functions[place].counters.attached += 1;
        info!(function, name = %self.name(function), "attached");
        Ok(())
    }

    /// A connection has ended: its guest goes, and the next client may come.
    pub(crate) fn end(&mut self, function: u8, ended: &Ended) -> io::Result<()> {
        let place = usize::from(function);
        let name = self.name(function);
        match ended.is_by_force() {
            true => warn!(function, %name, reason = %ended, "the connection is ended"),
            false => info!(function, %name, reason = %ended, "detached"),
        }
        if let Ok(Counts {
            faults,
            last_fault: Some(fault),
            ..
        }) = self.card.counts(function)
        {
            info!(function, %name, faults, last = %fault, "faults had stopped its queues");
        }
        self.functions[place].counters.count_end(ended.word());
        if let Err(fault) = self.card.detach(function) {
            error!(function, %fault, "the card can't let the guest go");
        }
        self.functions[place].forget_client(&self.apart);
        self.busy &= !(1 << function);
        self.untold &= !(1 << function);
        if self.functions[place].is_barred {
            error!(function, %name, "no client is taken until SIGHUP: the last one was hostile");
            return Ok(());
        }
        self.watch(&self.functions[place].listener, Source::Listener(function))
    }

    /// Watches the sockets of vacant functions anew, where an error or a hostile client had ended that.
    pub(crate) fn listen_again(&mut self) {
        for function in &mut self.functions {
            function.is_barred = false;
        }
        for (number, function) in (0u8..).zip(&self.functions) {
            if function.client.is_none() {
                // (it is refused where the socket is watched)
                let _ = self.watch(&function.listener, Source::Listener(number));
            }
        }
    }

    // A client has said something, or has room for its reply.
    fn hear(&mut self, function: u8) -> io::Result<()> {
        for _ in 0..MOST_MESSAGES {
            match self.hear_one(function) {
                Ok(true) => {}
                Ok(false) => break,
                Err(ended) => return self.end(function, &ended),
            }
        }
        if self.card.is_busy(function) {
            self.busy |= 1 << function;
        }
        if self.untold >> function & 1 == 1 && self.card.notify(function) {
            self.untold &= !(1 << function);
        }
        self.watch_for_room(function)
    }

    // Handles one message of a client. False: there is none, or its last reply isn't sent yet.
    fn hear_one(&mut self, function: u8) -> Result<bool, Ended> {
        let here = &mut self.functions[usize::from(function)];
        let Some(client) = here.client.as_mut() else {
            return Ok(false);
        };
        client.send()?;
        if client.is_replying() {
            return Ok(false);
        }
        let Some(message) = client.read()? else {
            return Ok(false);
        };
        here.counters.messages += 1;
        let mut registers = Registers::new(&mut self.card, function, &mut self.room);
        let touched = match here.page.as_mut() {
            Some(page) => page.before(message.bytes, &mut registers)?,
            None => Touched::Nothing,
        };
        let files = message.files;
        let step = self
            .card
            .receive(function, message.bytes, files.len(), message.room)
            .map_err(Ended::Card)?;
        let reply = self.do_step(function, step, files)?;
        if let Some((page, mut registers)) = self.page_of(function) {
            page.after(touched, &mut registers)?;
        }
        self.reply(function, reply)
    }

    // Does what is left of a message, and tells how long its reply is.
    fn do_step(&mut self, function: u8, step: Step, files: Vec<OwnedFd>) -> Result<usize, Ended> {
        match step {
            Step::Answered { reply } => Ok(reply),
            Step::Asks { order, reply } => {
                self.do_order(function, order, files)?;
                Ok(reply)
            }
            Step::Ends(breach) => Err(Ended::Breach(breach)),
        }
    }

    // Sends a reply of so many bytes, with the page beside it where the card says in it that there is one.
    fn reply(&mut self, function: u8, count: usize) -> Result<bool, Ended> {
        let here = &mut self.functions[usize::from(function)];
        let Some(client) = here.client.as_mut() else {
            return Ok(false);
        };
        let mut registers = Registers::new(&mut self.card, function, &mut self.room);
        let beside = match here.page.as_mut() {
            Some(page) => page.beside(client.laid(count), &mut registers)?,
            None => None,
        };
        client.reply(count, beside).map(|()| true)
    }

    // Does what the card leaves to the shell. Files that it names no place for are closed.
    fn do_order(
        &mut self,
        function: u8,
        order: Order,
        mut files: Vec<OwnedFd>,
    ) -> Result<(), Ended> {
        debug!(function, ?order, "order");
        match order {
            Order::Map {
                address,
                size,
                offset,
                access,
            } => match (files.pop(), files.len()) {
                (Some(file), 0) => {
                    let range = (offset, size);
                    let mapped = self.card.map(function, file, address, range, access);
                    mapped.map_err(Ended::Memory)
                }
                _ => Err(Ended::TooManyFiles),
            },
            Order::Unmap { address, size } => {
                let unmapped = self.card.unmap(function, address, size);
                unmapped.map_err(Ended::Memory)
            }
            Order::Arm { first, .. } => {
                let here = &mut self.functions[usize::from(function)];
                here.arm(first, files).map_err(Ended::Vector)
            }
            Order::Disarm { first, count } => {
                self.functions[usize::from(function)].disarm(first, count);
                Ok(())
            }
        }
    }

    // While a reply isn't sent, its client's messages stay in the socket.
    fn watch_for_room(&mut self, function: u8) -> io::Result<()> {
        let here = &mut self.functions[usize::from(function)];
        let Some(client) = here.client.as_ref() else {
            return Ok(());
        };
        if client.is_replying() == here.is_watched_for_room {
            return Ok(());
        }
        here.is_watched_for_room = client.is_replying();
        let interest = match here.is_watched_for_room {
            true => Interest::Write,
            false => Interest::Read,
        };
        let number = Source::Client(function).number();
        self.poller.change(client, number, interest)
    }

    // Each function whose queues may have more is served once, another one first in each turn.
    fn serve_queues(&mut self) -> io::Result<()> {
        let count = self.functions.len();
        self.first = (self.first + 1) % count.max(1);
        for turn in 0..count {
            let place = (self.first + turn) % count;
            if self.busy >> place & 1 == 1 {
                let function = place as u8;
                self.serve_queues_of(function);
                let put = match self.page_of(function) {
                    Some((page, mut registers)) => page.after_service(&mut registers),
                    None => Ok(()),
                };
                if let Err(ended) = put {
                    self.end(function, &ended)?;
                }
            }
        }
        Ok(())
    }

    fn serve_queues_of(&mut self, function: u8) {
        let more = self.card.more(function);
        let counters = &mut self.functions[usize::from(function)].counters;
        counters.services += 1;
        for number in 0..more.frames {
            let Some(length) = self.card.frame(number, &mut self.frame[..]) else {
                continue;
            };
            let frame = &self.frame[..length];
            match self.wire.as_mut().map(|wire| wire.send(frame)) {
                Some(Ok(())) => {
                    counters.sent_frames += 1;
                    counters.sent_bytes += frame.len() as u64;
                }
                Some(Err(error)) => {
                    debug!(function, %error, "a frame is lost at the wire");
                    counters.lost_frames += 1;
                }
                None => counters.lost_frames += 1,
            }
        }
        if !more.goes_on {
            self.busy &= !(1 << function);
        }
    }

    fn take_from_wire(&mut self) -> io::Result<()> {
        let Some(wire) = self.wire.as_mut() else {
            return Ok(());
        };
        let taken = self.arrived.take(wire);
        let (bytes, ends) = self.arrived.frames();
        let count = self.card.wire_burst(bytes, ends);
        self.totals.received_frames += ends.len() as u64;
        self.totals.refused_frames += count.refused as u64;
        if let Err(error) = taken {
            error!(%error, "the wire can't be read any more, until a restart");
            self.poller.forget(wire)?;
        }
        Ok(())
    }

    // Each function that vectors were raised of gets each of them once; one that rests waits. A client that makes such a write wait does so
    // once.
    fn signal_vectors(&mut self) -> io::Result<()> {
        self.due = None;
        let raised = self.card.raised();
        if raised == 0 {
            return Ok(());
        }
        self.alarm.use_it()?;
        let now = Instant::now();
        for function in (0..self.count()).filter(|function| raised >> function & 1 == 1) {
            if !self.signal_vectors_of(function, now) {
                self.functions[usize::from(function)].is_barred = true;
                self.end(function, &Ended::MadeWait)?;
            }
        }
        Ok(())
    }

    // False where its client made a write wait.
    fn signal_vectors_of(&mut self, function: u8, now: Instant) -> bool {
        let here = &mut self.functions[usize::from(function)];
        let vectors = self.card.signal(function, here.rests.over(now));
        for vector in (0..VECTORS).filter(|vector| vectors >> vector & 1 == 1) {
            here.rests
                .begin(vector, self.card.interval(function, vector), now);
        }
        if self.card.raised() >> function & 1 == 1 {
            self.due = [self.due, here.rests.next()].into_iter().flatten().min();
        }
        here.signal(vectors)
    }

    // Who connects there gets the text of all counters, and nothing is read. What the socket doesn't take at once is lost.
    fn tell_counters(&mut self) -> io::Result<()> {
        let mut client = match self.metrics.accept() {
            Ok((client, _)) => client,
            Err(error) if is_passing(&error) => return Ok(()),
            Err(error) => {
                let path = self.metrics_place.path().display();
                error!(%error, socket = %path, "nobody can ask there any more, until a restart");
                return self.poller.forget(&self.metrics);
            }
        };
        let totals = Totals {
            unclaimed_frames: self.card.unclaimed(),
            ..self.totals.clone()
        };
        let text = counters::text(&self.shown(), &totals);
        let told = client.set_nonblocking(true);
        if let Err(error) = told.and_then(|()| client.write_all(text.as_bytes())) {
            debug!(%error, "the counters weren't taken whole");
        }
        Ok(())
    }

    fn shown(&mut self) -> Vec<Shown<'_>> {
        let count = 0..self.count();
        // (each function is one of the card's)
        let counts: Vec<Counts> = count
            .map(|number| self.card.counts(number).unwrap_or_default())
            .collect();
        (0u8..)
            .zip(self.functions.iter().zip(counts))
            .map(|(number, (function, counts))| Shown {
                number,
                name: self.name(number),
                is_attached: function.client.is_some(),
                mapped: self.card.mapped(number),
                counts,
                counters: &function.counters,
            })
            .collect()
    }
}

// How long it looks for work before it sleeps.
fn awake(options: &Options) -> Duration {
    let given = Duration::from_micros(u64::from(options.poll));
    match options.transmit_page {
        true => given.max(AWAKE),
        false => given,
    }
}

// Whether a client had gone before it was accepted, or the next turn is another try.
fn is_passing(error: &io::Error) -> bool {
    matches!(
        error.kind(),
        io::ErrorKind::WouldBlock | io::ErrorKind::ConnectionAborted | io::ErrorKind::Interrupted
    )
}
