//! Plays paper 01's L1 through the safe wrappers, event by event, and prints its listing.

mod vrolkant;

use vrolkant::{kind, Counts, Event, Ran, Refusal, Table};

/// The setup of L1.
const COUNTS: Counts = Counts {
    clients: 1,
    servers: 2,
    databases: 1,
    attempts: 2,
};

// How many cells each part of the table has; the parts lie in this order.
const HEADER_CELLS: usize = 4;
const SERVER_CELLS: usize = 2;
const DATABASE_CELLS: usize = 2;
const CLIENT_CELLS: usize = 5;
const RESULT_CELLS: usize = 13 + 2 * COUNTS.servers as usize;

const CLIENTS_START: usize = HEADER_CELLS
    + COUNTS.servers as usize * SERVER_CELLS
    + COUNTS.databases as usize * DATABASE_CELLS;
const RESULTS_START: usize = CLIENTS_START + COUNTS.clients as usize * CLIENT_CELLS;

// Where a client keeps what the listing prints.
const PHASE: usize = 1;
const ATTEMPT: usize = 2;
const DELIVERED: usize = 4;

// Where a result keeps it.
const OWNER: usize = 0;
const OUTCOME: usize = 1;
const VALUE: usize = 2;
const VOTED_YES: usize = 6;
const COMMITTED: usize = 12;

/// The events of L1: kind, client, attempt, server, database, value.
const EVENTS: [Event; 10] = [
    Event::of([kind::ISSUE, 1, 0, 0, 0, 700]),
    Event::of([kind::REQUEST_ARRIVES, 1, 1, 1, 0, 0]),
    Event::of([kind::COMPUTE, 1, 1, 1, 0, 55]),
    Event::of([kind::SUSPECT, 0, 0, 2, 0, 1]),
    Event::of([kind::CLEAN, 1, 1, 2, 0, 0]),
    Event::of([kind::DECIDE_ARRIVES, 1, 1, 2, 1, 0]),
    Event::of([kind::PREPARE_ARRIVES, 1, 1, 0, 1, kind::YES]),
    Event::of([kind::ACK_ARRIVES, 1, 1, 2, 1, 0]),
    Event::of([kind::RESULT_ARRIVES, 1, 1, 2, 0, 0]),
    // the client went on to attempt 2 and sent it to server 1 alone: this one is refused
    Event::of([kind::REQUEST_ARRIVES, 1, 2, 2, 0, 0]),
];

/// Prints each event's place and number, and answers as `Table::run` does.
fn play(table: &mut Table) -> Ran {
    for (accepted, event) in EVENTS.iter().enumerate() {
        let place = accepted + 1;
        if let Err(refusal) = table.apply(*event) {
            println!("{place} {}", refusal as u16);
            return Ran {
                accepted,
                refusal: Some(refusal),
            };
        }
        println!("{place} 0");
    }
    Ran {
        accepted: EVENTS.len(),
        refusal: None,
    }
}

fn print_clients(table: &Table) {
    let clients = table.cells()[CLIENTS_START..RESULTS_START].chunks(CLIENT_CELLS);
    for (client, cells) in (1..).zip(clients) {
        println!(
            "C {client} {} {} {}",
            cells[PHASE], cells[ATTEMPT], cells[DELIVERED]
        );
    }
}

fn print_results(table: &Table) {
    let ids = (1..=COUNTS.clients)
        .flat_map(|client| (1..=COUNTS.attempts).map(move |attempt| (client, attempt)));
    let rows = table.cells()[RESULTS_START..].chunks(RESULT_CELLS);
    // the listing leaves out what no server claimed
    for ((client, attempt), row) in ids.zip(rows).filter(|(_, row)| row[OWNER] != 0) {
        let (yes_votes, commits) = (row[VOTED_YES].count_ones(), row[COMMITTED].count_ones());
        println!(
            "R {client} {attempt} {} {} {} {yes_votes} {commits}",
            row[OWNER], row[OUTCOME], row[VALUE]
        );
    }
}

fn main() -> Result<(), Refusal> {
    let mut table = Table::set_up(COUNTS)?;
    let one_by_one = play(&mut table);
    print_clients(&table);
    print_results(&table);

    // the list job, on a table of its own, has to answer the same and leave every cell the same
    let mut second = Table::set_up(COUNTS)?;
    let ran = second.run(&EVENTS);
    eprintln!("run: {} accepted, refusal {:?}", ran.accepted, ran.refusal);
    assert_eq!(ran, one_by_one);
    assert_eq!(second, table);
    Ok(())
}
