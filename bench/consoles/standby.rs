//! What a standby costs that waits for the lock of its leader, and how soon it has it.
use crate::cluster::{Console, Served, NODES};
use crate::figures::{median, micros};
use crate::{registrations, RIVALRY};
use std::io::Result;
use std::thread;
use std::time::{Duration, Instant};

/// For how long a standby waits whose cost is measured.
const WAIT: Duration = Duration::from_secs(5);

/// How long a standby waits before its leader gives the lock back.
const SHORT_WAIT: Duration = Duration::from_millis(100);

/// Of how many changes of the leader the median is told.
const CHANGES: u32 = 20;

/// A caller of the lock that makes a leader.
struct Caller<'a> {
    console: Console,
    /// Its node, which is also the requester that it asks for.
    node: &'a str,
    process: String,
}

impl<'a> Caller<'a> {
    fn attach(served: &Served, node: &'a str) -> Result<Caller<'a>> {
        let mut console = Console::attach(served, node)?;
        let process = console.ask("spawn")?;
        Ok(Caller { console, node, process })
    }

    /// Asks for the lock, for as long as it takes; `hear` gives the answer.
    fn ask_to_lead(&mut self) -> Result<()> {
        self.console.send(&format!("set_lock {} leader {} all infinity", self.process, self.node))
    }

    /// Gives the lock back; `hear` gives the answer.
    fn ask_to_step_down(&mut self) -> Result<()> {
        self.console.send(&format!("del_lock {} leader {} all", self.process, self.node))
    }

    /// Waits until what it asked for is done.
    fn hear(&mut self) -> Result<()> {
        self.console.hear("true")
    }
}

/// A leader at the first node, and a standby at the second: the part of a core that both nodes take while the standby waits, and how long
/// it takes from the leader's deletion until the standby has the lock.
pub fn wait_and_take_over(program: &str, nodes: usize) -> Result<()> {
    let served = Served::start(program, nodes, 2)?;
    let mut leader = Caller::attach(&served, NODES[0])?;
    let mut standby = Caller::attach(&served, NODES[1])?;
    leader.ask_to_lead()?;
    leader.hear()?;
    standby.ask_to_lead()?;
    thread::sleep(SHORT_WAIT);
    let before = served.cpu_seconds()?;
    thread::sleep(WAIT);
    let taken = served.cpu_seconds()? - before;
    let changes = (0..CHANGES).map(|_| change(&mut leader, &mut standby)).collect::<Result<Vec<Duration>>>()?;
    leader.ask_to_step_down()?;
    leader.hear()?;
    standby.hear()?;
    leader.console.quit()?;
    standby.console.quit()?;
    let events = served.finish()?;
    println!(
        "nodes {nodes}: a standby that waits {:.1} % of one core, has the lock {:.1} us after it is given back; {events} events in all",
        taken / WAIT.as_secs_f64() * 100.0,
        micros(median(changes)),
    );
    Ok(())
}

/// A leader at the first node and a standby at the second, while both nodes register names, and behind that: the part of a core that they
/// take once nobody registers any more and the standby still waits.
pub fn wait_behind_rivals(program: &str) -> Result<()> {
    let served = Served::start(program, 2, 4)?;
    let mut leader = Caller::attach(&served, NODES[0])?;
    let mut standby = Caller::attach(&served, NODES[1])?;
    leader.ask_to_lead()?;
    leader.hear()?;
    standby.ask_to_lead()?;
    let made: u64 = registrations(&served, 2)?.iter().sum();
    thread::sleep(SHORT_WAIT);
    let before = served.cpu_seconds()?;
    thread::sleep(WAIT);
    let taken = served.cpu_seconds()? - before;
    leader.ask_to_step_down()?;
    leader.hear()?;
    standby.hear()?;
    leader.console.quit()?;
    standby.console.quit()?;
    served.finish()?;
    println!(
        "nodes 2: a standby that waits beside {:.0} registrations a second, and behind them {:.1} % of one core",
        made as f64 / RIVALRY.as_secs_f64(),
        taken / WAIT.as_secs_f64() * 100.0,
    );
    Ok(())
}

/// The leader steps down and the standby takes over; then the leader leads again, and the standby waits again.
fn change(leader: &mut Caller, standby: &mut Caller) -> Result<Duration> {
    let start = Instant::now();
    leader.ask_to_step_down()?;
    leader.hear()?;
    standby.hear()?;
    let taken = start.elapsed();
    standby.ask_to_step_down()?;
    standby.hear()?;
    leader.ask_to_lead()?;
    leader.hear()?;
    standby.ask_to_lead()?;
    thread::sleep(SHORT_WAIT);
    Ok(taken)
}
