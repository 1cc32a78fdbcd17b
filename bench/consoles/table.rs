//! What a look-up and a registration cost one console, by the number of nodes: with the machine free, and beside endless loops.
use crate::cluster::{Console, Served, NODES};
use crate::figures::{made_by, median, micros, of_each, warm_up_of, RUNS};
use crate::loops::Loops;
use crate::pairs::Trips;
use std::io::Result;
use std::time::{Duration, Instant};

/// How many calls a measure makes.
pub const CALLS: u32 = 2000;

/// How many calls a measure makes beside endless loops, where each may take a millisecond or more.
const CALLS_BESIDE_LOOPS: u32 = 200;

/// What one console finds in a run.
struct Costs {
    look_up: Duration,
    register: Duration,
    /// What a registration takes beyond a look-up of the same run: both go through the same socket, so what is left is what the seat and
    /// the nodes do. The look-up goes beside the node.
    beyond: Duration,
    /// How many events a registration makes.
    events: f64,
    /// How many bytes the program's memory grew by for each event of the run.
    bytes: f64,
}

/// What one run of so many nodes costs.
fn costs_of_run(program: &str, nodes: usize, calls: u32) -> Result<Costs> {
    let served = Served::start(program, nodes, 1)?;
    let mut console = Console::attach(&served, NODES[0])?;
    let process = console.ask("spawn")?;
    let before = served.megabytes()?;
    let look_up = of_each(calls, || console.expect("whereis x", "undefined"))?;
    let register = of_each(calls, || {
        console.expect(&format!("register x {process}"), "yes")?;
        console.expect("unregister x", "ok")
    })? / 2;
    let grown = served.megabytes()? - before;
    console.quit()?;
    let all = served.finish()?;
    let (events, bytes) = (events_of_each(all, calls), grown * 1e6 / all as f64);
    Ok(Costs { look_up, register, beyond: register.saturating_sub(look_up), events, bytes })
}

/// How many events a registration made, where a run had so many in all: the spawn is one, and no look-up is one.
fn events_of_each(all: u64, calls: u32) -> f64 {
    let registrations = 2 * made_by(calls);
    (all as f64 - 1.0) / f64::from(registrations)
}

/// What one run of so many nodes costs where the console sends its lines ahead: nothing waits for a socket between two calls, so
/// this is what a program pays that calls a node from within.
fn costs_of_run_ahead(program: &str, nodes: usize, calls: u32) -> Result<Costs> {
    let served = Served::start(program, nodes, 1)?;
    let mut console = Console::attach(&served, NODES[0])?;
    let process = console.ask("spawn")?;
    let before = served.megabytes()?;
    let look_up = of_all(&mut console, &[("whereis x".into(), "undefined")], calls)?;
    let registrations = [(format!("register x {process}"), "yes"), ("unregister x".into(), "ok")];
    let register = of_all(&mut console, &registrations, calls)? / 2;
    let grown = served.megabytes()? - before;
    console.quit()?;
    let all = served.finish()?;
    let (events, bytes) = (events_of_each(all, calls), grown * 1e6 / all as f64);
    Ok(Costs { look_up, register, beyond: register.saturating_sub(look_up), events, bytes })
}

/// The time of one of so many rounds of these lines, which are sent ahead.
fn of_all(console: &mut Console, lines: &[(String, &str)], rounds: u32) -> Result<Duration> {
    console.expect_all(lines, warm_up_of(rounds))?;
    let start = Instant::now();
    console.expect_all(lines, rounds)?;
    Ok(start.elapsed() / rounds)
}

/// The median of each cost, on its own, of several runs.
fn medians(run: impl Fn() -> Result<Costs>) -> Result<Costs> {
    let runs = (0..RUNS).map(|_| run()).collect::<Result<Vec<Costs>>>()?;
    Ok(Costs {
        look_up: median(runs.iter().map(|run| run.look_up).collect()),
        register: median(runs.iter().map(|run| run.register).collect()),
        beyond: median(runs.iter().map(|run| run.beyond).collect()),
        events: median(runs.iter().map(|run| run.events).collect()),
        bytes: median(runs.iter().map(|run| run.bytes).collect()),
    })
}

/// Tells what both cost, with `place` before it.
fn tell(place: &str, costs: &Costs, trips: &Trips) {
    println!(
        "{place}: whereis {:8.1} us ({:.2} echoes)   register {:8.1} us ({:.2} echoes, {:.1} channel trips, {:.1} beyond a whereis)",
        micros(costs.look_up),
        trips.in_echoes(costs.look_up),
        micros(costs.register),
        trips.in_echoes(costs.register),
        trips.in_channel_trips(costs.register),
        trips.in_channel_trips(costs.beyond),
    );
}

/// The table with the machine free, where lines are sent ahead.
pub fn ahead(program: &str, trips: &Trips) -> Result<()> {
    for nodes in [1, 2, 4, 8] {
        let costs = medians(|| costs_of_run_ahead(program, nodes, CALLS))?;
        tell(&format!("sent ahead, nodes {nodes}"), &costs, trips);
    }
    Ok(())
}

/// The table with the machine free, how many events a registration makes, and the memory that an event takes.
pub fn free(program: &str, trips: &Trips) -> Result<()> {
    let mut events = Vec::new();
    for nodes in [1, 2, 4, 8] {
        let costs = medians(|| costs_of_run(program, nodes, CALLS))?;
        tell(&format!("nodes {nodes}"), &costs, trips);
        events.push((nodes, costs.events, costs.bytes));
    }
    for (nodes, events, bytes) in events {
        println!("nodes {nodes}: {events:.1} events a registration, {bytes:.0} bytes an event");
    }
    Ok(())
}

/// The table while two endless loops take two cores. It is told in the channel trips of the free machine, so that it compares with
/// the free table, and in those beside the loops.
pub fn beside_loops(program: &str, trips: &Trips) -> Result<()> {
    let _loops = Loops::start();
    let slowed = Trips::measure(CALLS_BESIDE_LOOPS)?;
    println!("beside two loops: echo over loopback        {:8.1} us", micros(slowed.echo));
    println!("beside two loops: two threads over channels {:8.1} us", micros(slowed.channel));
    for nodes in [2, 4, 8] {
        let costs = medians(|| costs_of_run(program, nodes, CALLS_BESIDE_LOOPS))?;
        println!(
            "beside two loops, nodes {nodes}: whereis {:8.1} us   register {:8.1} us (beyond a whereis {:.1} channel trips of the free machine, {:.1} beside the loops)",
            micros(costs.look_up),
            micros(costs.register),
            trips.in_channel_trips(costs.beyond),
            slowed.in_channel_trips(costs.beyond),
        );
    }
    Ok(())
}
