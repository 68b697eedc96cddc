//! A run of a script: its lines in order, what they print, and where it stops.

use crate::envelope::Note;
use crate::group::Group;
use crate::machine::Ending;
use crate::object::{Command, Query};
use crate::proposal::{Call, Key, Proposal, Request};
use crate::requests::Requests;
use crate::script::{Line, Name, LONGEST_LINE};
use crate::voters::HOSTS;
use std::collections::{HashMap, HashSet};
use std::io::Write;

const MOST_ENTRIES: usize = 200_000;
const MOST_ENVELOPES: usize = 400_000;
const MOST_BYTES: usize = 67_108_864;
const LONGEST_COMMAND: usize = 512;
const MOST_ROUNDS: usize = 64;

pub enum Stop {
    End,
    BadLine,
    Limit(&'static str),
}

/// A session as its client keeps it.
struct Client {
    client: u64,
    series: u64,
    responded: u64,
    outstanding: Option<Command>,
}

#[derive(Default)]
pub struct Run {
    printed: Vec<u8>,
    begun: Vec<u8>,
    lines: usize,
    bytes: usize,
    hosts: [Option<Requests>; HOSTS],
    group: Option<Group>,
    contexts: HashSet<Name>,
    sessions: HashMap<Name, Client>,
}

/// Prints a line. Writing to a vector doesn't fail.
macro_rules! print_line {
    ($printed:expr, $($what:tt)*) => {{
        let _ = writeln!($printed, $($what)*);
    }};
}

impl Run {
    pub fn new() -> Run {
        Run::default()
    }

    pub fn printed(&self) -> &[u8] {
        &self.printed
    }

    pub fn clear_printed(&mut self) {
        self.printed.clear();
    }

    /// Runs the lines that a piece of the input ends, and keeps the one that it begins.
    pub fn feed(&mut self, mut piece: &[u8]) -> Result<(), Stop> {
        while let Some(end) = piece.iter().position(|&byte| byte == b'\n') {
            let stopped = if self.begun.is_empty() {
                self.line(&piece[..end])
            } else {
                let mut line = std::mem::take(&mut self.begun);
                line.extend_from_slice(&piece[..end]);
                self.line(&line)
            };
            self.stop(stopped)?;
            piece = &piece[end + 1..];
        }
        self.begun.extend_from_slice(piece);
        if self.begun.len() > LONGEST_LINE {
            return self.stop(Err(Stop::BadLine));
        }
        Ok(())
    }

    /// The input ends without the line that ends a script.
    pub fn finish(&mut self) -> Result<(), Stop> {
        self.stop(Err(Stop::BadLine))
    }

    /// Prints the last line of a run that stops.
    fn stop(&mut self, stopped: Result<(), Stop>) -> Result<(), Stop> {
        match &stopped {
            Ok(()) => {}
            Err(Stop::End) => print_line!(self.printed, "end"),
            Err(Stop::BadLine) => print_line!(self.printed, "badline {}", self.lines + 1),
            Err(Stop::Limit(limit)) => print_line!(self.printed, "limit {limit}"),
        }
        stopped
    }

    /// Runs a line. The limits are tried after it, which is before it is known whether another
    /// line comes.
    fn line(&mut self, bytes: &[u8]) -> Result<(), Stop> {
        let line = Line::parse(bytes).ok_or(Stop::BadLine)?;
        self.lines += 1;
        self.bytes += bytes.len() + 1;
        match self.refusal(&line) {
            Some(number) => print_line!(self.printed, "refused {number}"),
            None => self.act(line)?,
        }
        self.try_limits()
    }

    fn try_limits(&self) -> Result<(), Stop> {
        let (entries, envelopes) = match &self.group {
            Some(group) => (group.appended(), group.newest()),
            None => (0, 0),
        };
        if entries >= MOST_ENTRIES {
            return Err(Stop::Limit("entries 200000"));
        }
        if envelopes >= MOST_ENVELOPES {
            return Err(Stop::Limit("envelopes 400000"));
        }
        if self.bytes >= MOST_BYTES {
            return Err(Stop::Limit("script 67108864"));
        }
        Ok(())
    }

    /// The least number of a refusal that fits. What names an unknown thing is judged no further
    /// in that respect.
    fn refusal(&self, line: &Line) -> Option<u8> {
        let declared = |host: u8| self.hosts[host as usize].is_some();
        let session = line.session().map(|name| self.sessions.get(&name));
        if line.host().is_some_and(|host| !declared(host)) {
            return Some(1);
        }
        match line {
            Line::Skipped | Line::End | Line::Completed { .. } => {}
            Line::Host { host } => return declared(*host).then_some(13),
            Line::Group { voters, .. } if !voters.iter().all(|&voter| declared(voter)) => {
                return Some(1);
            }
            Line::Group { .. } => return self.group.is_some().then_some(13),
            _ if matches!(session, Some(None)) => {}
            _ => match &self.group {
                None => return Some(2),
                Some(group) if line.host().is_some_and(|host| !group.has(host)) => return Some(2),
                Some(_) => {}
            },
        }
        if line
            .context()
            .is_some_and(|context| self.contexts.contains(&context))
        {
            return Some(5);
        }
        match session {
            Some(None) => return Some(6),
            Some(Some(session)) => {
                let repeats = matches!(line, Line::Again { .. } | Line::Completed { .. });
                if session.outstanding.is_some() != repeats {
                    return Some(7);
                }
            }
            None => {}
        }
        if let Line::Register { session, .. } = line {
            if self.sessions.contains_key(session) {
                return Some(6);
            }
        }
        if let (Some(number), Some(group)) = (line.envelope(), &self.group) {
            if number == 0 || number > group.newest() as u64 {
                return Some(9);
            }
        }
        if line
            .command()
            .is_some_and(|command| command.size() > LONGEST_COMMAND)
        {
            return Some(14);
        }
        None
    }

    /// Does what a line says that isn't refused.
    fn act(&mut self, line: Line) -> Result<(), Stop> {
        match line {
            Line::Skipped => {}
            Line::End => {
                self.show_decided();
                return Err(Stop::End);
            }
            Line::Host { host } => {
                self.hosts[host as usize] = Some(Requests::default());
                print_line!(self.printed, "started {host} 1");
            }
            Line::Group {
                voters,
                most_sessions,
            } => {
                self.group = Some(Group::new(&voters, most_sessions));
            }
            Line::Timeout { host } => self.event(host, |group| group.timeout(host)),
            Line::Beat { host } => self.event(host, |group| group.beat(host)),
            Line::Ready { host } => self.event(host, |group| group.ready(host)),
            Line::Save { host } => self.event(host, |group| group.save(host)),
            Line::Apply { host, most } => {
                if self.group().is_ripe(host) {
                    self.apply(host, most);
                } else {
                    print_line!(self.printed, "idle");
                }
            }
            Line::Deliver { number } => self.deliver(number as usize),
            Line::Ask {
                host,
                context,
                command,
            } => {
                self.propose(host, context, Proposal::Plain(command));
            }
            Line::Raw {
                host,
                context,
                client,
                series,
                responded,
                command,
            } => {
                let call = Call {
                    client,
                    series,
                    responded,
                    command,
                };
                self.propose(host, context, Proposal::Session(call));
            }
            Line::Register {
                host,
                context,
                session,
                client,
            } => {
                let made = Client {
                    client,
                    series: 1,
                    responded: 0,
                    outstanding: None,
                };
                self.sessions.insert(session, made);
                self.propose(host, context, Proposal::Register(client));
            }
            Line::Call {
                host,
                context,
                session,
                command,
            } => {
                self.session(session).outstanding = Some(command);
                self.call(host, context, session);
            }
            Line::Again {
                host,
                context,
                session,
            } => self.call(host, context, session),
            Line::Completed { session } => {
                let session = self.session(session);
                session.outstanding = None;
                session.responded = session.series;
                session.series += 1;
            }
            Line::Close {
                host,
                context,
                session,
            } => {
                let client = self.session(session).client;
                self.propose(host, context, Proposal::Close(client));
            }
            Line::Read {
                host,
                context,
                query,
            } => self.read(host, context, query),
            Line::Stale { host, query } => {
                let machine = self.group().machine(host);
                let (applied, answer) = (machine.applied(), machine.lookup(&query));
                print_line!(self.printed, "stale {host} 1 {applied} {answer}");
            }
            Line::Settle => return self.settle(),
            Line::Lose => {
                let newest = self.group().newest();
                self.group().settle_up_to(newest);
            }
            Line::Wire { number } => {
                let group = self.group.as_ref().expect("a group");
                let envelope = group.envelope(number as usize);
                let (from, to) = (envelope.from, envelope.to);
                let (kind, term) = (envelope.body.kind(), envelope.term);
                print_line!(self.printed, "wire 1 {number} {from} {to} {kind} {term}");
            }
        }
        Ok(())
    }

    /// Rounds of saves, deliveries and applies, until one does nothing. The limits are tried
    /// before each of these.
    fn settle(&mut self) -> Result<(), Stop> {
        let voters = self.group().voters();
        for _ in 0..MOST_ROUNDS {
            let mut idle = true;
            for &host in voters.iter() {
                if self.group().has_to_save(host) {
                    self.try_limits()?;
                    self.event(host, |group| group.save(host));
                    idle = false;
                }
            }
            let (settled, newest) = (self.group().settled(), self.group().newest());
            for number in settled + 1..=newest {
                self.try_limits()?;
                self.deliver(number);
                idle = false;
            }
            self.group().settle_up_to(newest);
            for &host in voters.iter() {
                if self.group().is_ripe(host) {
                    self.try_limits()?;
                    self.apply(host, MOST_ENTRIES);
                    idle = false;
                }
            }
            if idle {
                break;
            }
        }
        Ok(())
    }

    fn deliver(&mut self, number: usize) {
        let host = self.group().envelope(number).to;
        self.event(host, |group| group.deliver(number));
    }

    /// Asks a session's outstanding command, for the first time or again.
    fn call(&mut self, host: u8, context: Name, session: Name) {
        let &mut Client {
            client,
            series,
            responded,
            ref outstanding,
        } = self.session(session);
        let command = outstanding.clone().expect("an outstanding command");
        let call = Call {
            client,
            series,
            responded,
            command,
        };
        self.propose(host, context, Proposal::Session(call));
    }

    fn propose(&mut self, host: u8, context: Name, proposal: Proposal) {
        self.contexts.insert(context);
        print_line!(self.printed, "ask {context} 1 {proposal}");
        let key = self.requests(host).open(host, context);
        self.event(host, |group| group.propose(host, Request { key, proposal }));
    }

    fn read(&mut self, host: u8, context: Name, query: Query) {
        self.contexts.insert(context);
        print_line!(self.printed, "ask {context} 1 read {query}");
        let key = self.requests(host).open_read(host, context, query);
        self.event(host, |group| group.read(host, key));
    }

    /// Gives the group an event at a host, and prints what it tells.
    fn event(&mut self, host: u8, event: impl FnOnce(&mut Group) -> Vec<Note>) {
        for note in event(self.group()) {
            match note {
                Note::Idle => print_line!(self.printed, "idle"),
                Note::Leader { term } => print_line!(self.printed, "leader {host} 1 {term}"),
                Note::Dropped(key) => {
                    if let Some(context) = self.requests(host).drop_request(key.serial) {
                        print_line!(self.printed, "dropped {context}");
                    }
                }
                Note::Confirmed { key, index } => self.requests(host).confirm(key.serial, index),
            }
        }
        self.show_reads(host);
    }

    /// Applies entries at a host, and prints how its own open requests end.
    fn apply(&mut self, host: u8, most: usize) {
        let group = self.group.as_mut().expect("a group");
        let requests = self.hosts[host as usize].as_mut().expect("a declared host");
        let printed = &mut self.printed;
        group.apply(host, most, |key: Key, place, ending| {
            if key.host != host {
                return;
            }
            let Some(context) = requests.end(key.serial) else {
                return;
            };
            match ending {
                Ending::Done(reply) => print_line!(printed, "done {context} {place} {reply}"),
                Ending::Rejected => print_line!(printed, "rejected {context} {place}"),
                Ending::Responded => print_line!(printed, "responded {context} {place}"),
                Ending::Registered => print_line!(printed, "registered {context} {place}"),
                Ending::Closed => print_line!(printed, "closed {context} {place}"),
            }
        });
        self.show_reads(host);
    }

    /// Prints the confirmed reads of a host whose place is applied.
    fn show_reads(&mut self, host: u8) {
        let applied = self.group().machine(host).applied();
        for (serial, query) in self.requests(host).due(applied) {
            let answer = self.group().machine(host).lookup(&query);
            if let Some(context) = self.requests(host).end(serial) {
                print_line!(self.printed, "read {context} {applied} {answer}");
            }
        }
    }

    fn show_decided(&mut self) {
        let Some(group) = &self.group else {
            return;
        };
        for (number, entry) in group.decided().iter().enumerate() {
            let (place, request) = (number + 1, &entry.request);
            match &self.hosts[request.key.host as usize] {
                Some(requests) => {
                    let context = requests.context(request.key.serial);
                    print_line!(
                        self.printed,
                        "entry 1 {place} {context} {}",
                        request.proposal
                    );
                }
                None => print_line!(self.printed, "entry 1 {place} - blank"),
            }
        }
    }

    // what a line that isn't refused may take to be there

    fn group(&mut self) -> &mut Group {
        self.group.as_mut().expect("a group")
    }

    fn requests(&mut self, host: u8) -> &mut Requests {
        self.hosts[host as usize].as_mut().expect("a declared host")
    }

    fn session(&mut self, name: Name) -> &mut Client {
        self.sessions.get_mut(&name).expect("a known session")
    }
}
