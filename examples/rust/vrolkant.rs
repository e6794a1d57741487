//! Safe Rust over the C interface of include/vrolkant.h, as librunner.a exports it.

/// What the archive exports, as the header declares it.
mod archive {
    use super::Event;

    #[repr(C)]
    pub struct Ran {
        pub accepted: usize,
        pub refusal: u16,
    }

    extern "C" {
        pub fn vrolkant_table_length(
            clients: u16,
            servers: u16,
            databases: u16,
            attempts: u16,
        ) -> usize;
        pub fn vrolkant_set_up(
            table: *mut u16,
            length: usize,
            clients: u16,
            servers: u16,
            databases: u16,
            attempts: u16,
        ) -> u16;
        pub fn vrolkant_apply(
            table: *mut u16,
            length: usize,
            kind: u16,
            client: u16,
            attempt: u16,
            server: u16,
            database: u16,
            value: u16,
        ) -> u16;
        pub fn vrolkant_run(
            table: *mut u16,
            length: usize,
            events: *const Event,
            count: usize,
        ) -> Ran;
    }
}

/// The kinds of event, and what a database says when its prepare arrives.
#[allow(dead_code)] // a program need not use them all
pub mod kind {
    pub const ISSUE: u16 = 1;
    pub const TIMEOUT: u16 = 2;
    pub const REQUEST_ARRIVES: u16 = 3;
    pub const COMPUTE: u16 = 4;
    pub const PREPARE_ARRIVES: u16 = 5;
    pub const VOTE_ARRIVES: u16 = 6;
    pub const READY_ARRIVES: u16 = 7;
    pub const WRITE: u16 = 8;
    pub const SUSPECT: u16 = 9;
    pub const TRUST: u16 = 10;
    pub const CLEAN: u16 = 11;
    pub const DECIDE_ARRIVES: u16 = 12;
    pub const ACK_ARRIVES: u16 = 13;
    pub const RESULT_ARRIVES: u16 = 14;
    pub const SERVER_CRASHES: u16 = 15;
    pub const DATABASE_CRASHES: u16 = 16;
    pub const CLIENT_CRASHES: u16 = 17;
    pub const DATABASE_RECOVERS: u16 = 18;

    pub const YES: u16 = 1;
    pub const NO: u16 = 2;
}

/// The counts of a setup: clients, servers and databases from 1 to 8, attempts from 1 to 16.
#[derive(Clone, Copy)]
pub struct Counts {
    pub clients: u16,
    pub servers: u16,
    pub databases: u16,
    pub attempts: u16,
}

/// An event record. A field that its kind does not use is 0.
#[repr(C)]
#[derive(Clone, Copy)]
pub struct Event {
    pub kind: u16,
    pub client: u16,
    pub attempt: u16,
    pub server: u16,
    pub database: u16,
    pub value: u16,
}

impl Event {
    /// The record of six numbers, in the order of its fields.
    pub const fn of([kind, client, attempt, server, database, value]: [u16; 6]) -> Event {
        Event {
            kind,
            client,
            attempt,
            server,
            database,
            value,
        }
    }
}

/// Why the engine refuses: always the lowest number that applies.
#[derive(Clone, Copy, Debug, PartialEq, Eq)]
#[repr(u16)]
pub enum Refusal {
    /// a count outside its range, or a table of another length
    WrongSize = 1,
    /// a cell not in range
    OutOfRange = 2,
    /// no event has this kind
    UnknownKind = 3,
    /// a field outside its range, or not 0 where it must be
    WrongField = 4,
    /// a party that acts is down
    PartyDown = 5,
    /// the message was not sent
    NotSent = 6,
    /// the event must not happen now
    MustNot = 7,
}

impl Refusal {
    /// The refusal of a number, or none where it is 0.
    fn of(number: u16) -> Option<Refusal> {
        match number {
            0 => None,
            1 => Some(Refusal::WrongSize),
            2 => Some(Refusal::OutOfRange),
            3 => Some(Refusal::UnknownKind),
            4 => Some(Refusal::WrongField),
            5 => Some(Refusal::PartyDown),
            6 => Some(Refusal::NotSent),
            7 => Some(Refusal::MustNot),
            _ => unreachable!("the contracts of the archive allow 0 to 7"),
        }
    }
}

/// What the list job answers: how many events were accepted, and the refusal that ended the list,
/// or none at its end.
#[derive(Debug, PartialEq, Eq)]
pub struct Ran {
    pub accepted: usize,
    pub refusal: Option<Refusal>,
}

/// A table that a setup made: its cells are read by all, and written by the engine alone.
#[derive(Debug, PartialEq, Eq)]
pub struct Table {
    cells: Vec<u16>,
}

// SAFETY, of every call below: each pointer goes with the length of its own Vec or slice, and the
// borrow keeps all others away until the call returns. The engine asks nothing else.
impl Table {
    /// A fresh table. Counts outside their range have length 0, which the engine itself refuses.
    pub fn set_up(counts: Counts) -> Result<Table, Refusal> {
        let Counts {
            clients,
            servers,
            databases,
            attempts,
        } = counts;
        let length =
            unsafe { archive::vrolkant_table_length(clients, servers, databases, attempts) };
        let mut cells = vec![0; length];
        let number = unsafe {
            archive::vrolkant_set_up(
                cells.as_mut_ptr(),
                length,
                clients,
                servers,
                databases,
                attempts,
            )
        };
        match Refusal::of(number) {
            None => Ok(Table { cells }),
            Some(refusal) => Err(refusal),
        }
    }

    /// Applies one event; one that is refused changes no cell.
    pub fn apply(&mut self, event: Event) -> Result<(), Refusal> {
        let Event {
            kind,
            client,
            attempt,
            server,
            database,
            value,
        } = event;
        let number = unsafe {
            archive::vrolkant_apply(
                self.cells.as_mut_ptr(),
                self.cells.len(),
                kind,
                client,
                attempt,
                server,
                database,
                value,
            )
        };
        match Refusal::of(number) {
            None => Ok(()),
            Some(refusal) => Err(refusal),
        }
    }

    /// Applies events in order and stops at the first refusal; the table is left as the accepted
    /// ones made it.
    pub fn run(&mut self, events: &[Event]) -> Ran {
        let ran = unsafe {
            archive::vrolkant_run(
                self.cells.as_mut_ptr(),
                self.cells.len(),
                events.as_ptr(),
                events.len(),
            )
        };
        Ran {
            accepted: ran.accepted,
            refusal: Refusal::of(ran.refusal),
        }
    }

    pub fn cells(&self) -> &[u16] {
        &self.cells
    }
}
