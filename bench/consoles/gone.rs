//! How long a name is still found after the exit of its process.
use crate::cluster::{Console, Served, NODES};
use crate::figures::{median, micros, warm_up_of};
use crate::pairs::Trips;
use std::io::{Error, ErrorKind, Result};
use std::time::{Duration, Instant};

/// Of how many rounds the median is told.
const ROUNDS: u32 = 200;

/// The name that comes and goes.
const NAME: &str = "x";

/// What one round takes.
struct Round {
    /// From sending the exit until the last console has answered `undefined`.
    gone: Duration,
    /// A look-up at each console in turn while nothing goes on: the part of a round that the polls take at least.
    polls: Duration,
}

/// Polls until the name of the process isn't found. Another answer than these two is a fault, and isn't polled on.
fn poll_until_gone(console: &mut Console, process: &str) -> Result<()> {
    loop {
        let answer = console.ask(&format!("whereis {NAME}"))?;
        if answer == "undefined" {
            return Ok(());
        }
        if answer != process {
            return Err(Error::new(ErrorKind::Other, format!("a poll was answered {answer:?}")));
        }
    }
}

/// Registers the name of a new process at the first console, and lets the process exit there.
fn round(consoles: &mut [Console]) -> Result<Round> {
    let process = consoles[0].ask("spawn")?;
    let start = Instant::now();
    for console in consoles.iter_mut() {
        console.expect(&format!("whereis {NAME}"), "undefined")?;
    }
    let polls = start.elapsed();
    consoles[0].expect(&format!("register {NAME} {process}"), "yes")?;
    let start = Instant::now();
    consoles[0].expect(&format!("exit {process}"), "ok")?;
    // A name that is gone at a node stays so, since nobody registers it: each console is polled until then, and isn't asked again.
    for console in consoles.iter_mut() {
        poll_until_gone(console, &process)?;
    }
    Ok(Round { gone: start.elapsed(), polls })
}

/// The time from an exit to the last node at which the name is gone, with a console at each of so many nodes.
pub fn exit_to_gone(program: &str, nodes: usize, trips: &Trips) -> Result<()> {
    let served = Served::start(program, nodes, nodes)?;
    let mut consoles = NODES[..nodes]
        .iter()
        .map(|node| Console::attach(&served, node))
        .collect::<Result<Vec<Console>>>()?;
    for _ in 0..warm_up_of(ROUNDS) {
        round(&mut consoles)?;
    }
    let rounds = (0..ROUNDS).map(|_| round(&mut consoles)).collect::<Result<Vec<Round>>>()?;
    let gone = median(rounds.iter().map(|round| round.gone).collect());
    println!(
        "nodes {nodes}: exit to gone {:8.1} us ({:.1} channel trips), a look-up at each console alone {:8.1} us",
        micros(gone),
        trips.in_channel_trips(gone),
        micros(median(rounds.iter().map(|round| round.polls).collect())),
    );
    for console in consoles {
        console.quit()?;
    }
    served.finish()?;
    Ok(())
}
