//! Measures a served cluster from its consoles, beside bare pairs in the same run: an echo server over loopback, and two
//! threads over plain channels. The first argument is the program. Behind it a number says for how many seconds eight consoles
//! call, and words choose parts; all are measured where there is none.
mod busy;
mod cluster;
mod figures;
mod gone;
mod load;
mod loops;
mod pairs;
mod standby;
mod table;

use cluster::{Console, Served, NODES};
use figures::micros;
use pairs::Trips;
use std::env;
use std::io::{Error, ErrorKind, Result};
use std::time::{Duration, Instant};

/// For how long rivals register and unregister.
const RIVALRY: Duration = Duration::from_secs(5);

/// The words for the parts, in the order in which they are measured.
const PARTS: [&str; 9] = ["table", "ahead", "loops", "rivals", "busy", "gone", "standby", "idle", "load"];

/// What is to be measured.
struct Wishes {
    program: String,
    /// For how many seconds eight consoles call; with none they don't.
    seconds: u64,
    /// The words of the chosen parts; all are where there is no word.
    parts: Vec<String>,
}

impl Wishes {
    /// What the arguments wish. A word that is no part is refused, since a misspelt one would else choose nothing and say nothing.
    fn read(mut words: impl Iterator<Item = String>) -> Result<Wishes> {
        let program = words.next().unwrap_or_else(|| "./cluster_main".into());
        let mut wishes = Wishes { program, seconds: 60, parts: Vec::new() };
        for word in words {
            if let Ok(seconds) = word.parse() {
                wishes.seconds = seconds;
            } else if PARTS.contains(&word.as_str()) {
                wishes.parts.push(word);
            } else {
                let told = format!("{word:?} is neither a number of seconds nor one of {}", PARTS.join(", "));
                return Err(Error::new(ErrorKind::InvalidInput, told));
            }
        }
        Ok(wishes)
    }

    fn include(&self, part: &str) -> bool {
        self.parts.is_empty() || self.parts.iter().any(|word| word == part)
    }
}

fn main() -> Result<()> {
    let wishes = Wishes::read(env::args().skip(1))?;
    let trips = Trips::measure(table::CALLS)?;
    println!("echo over loopback            {:8.1} us", micros(trips.echo));
    println!("two threads over channels     {:8.1} us", micros(trips.channel));
    for part in PARTS {
        if wishes.include(part) {
            measure(part, &wishes, &trips)?;
        }
    }
    Ok(())
}

/// Measures a part.
fn measure(part: &str, wishes: &Wishes, trips: &Trips) -> Result<()> {
    let program = &wishes.program;
    match part {
        "table" => table::free(program, trips),
        "ahead" => table::ahead(program, trips),
        "loops" => table::beside_loops(program, trips),
        "rivals" => [2, 4, 8].into_iter().try_for_each(|count| rivals(program, count)),
        "busy" => busy::registrations(program),
        "gone" => [2, 4, 8].into_iter().try_for_each(|nodes| gone::exit_to_gone(program, nodes, trips)),
        "standby" => {
            [2, 8].into_iter().try_for_each(|nodes| standby::wait_and_take_over(program, nodes))?;
            standby::wait_behind_rivals(program)
        }
        "idle" => idle(program),
        _ if wishes.seconds == 0 => Ok(()),
        _ => load::eight_consoles(program, Duration::from_secs(wishes.seconds)),
    }
}

/// How many registrations so many consoles make, each at a node and with a name of its own.
fn registrations(served: &Served, count: usize) -> Result<Vec<u64>> {
    let until = Instant::now() + RIVALRY;
    std::thread::scope(|scope| {
        let rivals: Vec<_> = NODES[..count]
            .iter()
            .map(|node| {
                scope.spawn(move || -> Result<u64> {
                    let mut console = Console::attach(served, node)?;
                    let process = console.ask("spawn")?;
                    let mut made = 0;
                    while Instant::now() < until {
                        console.expect(&format!("register {node} {process}"), "yes")?;
                        console.expect(&format!("unregister {node}"), "ok")?;
                        made += 2;
                    }
                    console.quit()?;
                    Ok(made)
                })
            })
            .collect();
        rivals.into_iter().map(|rival| rival.join().expect("a rival panicked")).collect()
    })
}

/// What all nodes make together when each registers and unregisters, and one alone among as many nodes.
fn rivals(program: &str, count: usize) -> Result<()> {
    let served = Served::start(program, count, 1)?;
    let alone: u64 = registrations(&served, 1)?.iter().sum();
    served.finish()?;
    let served = Served::start(program, count, count)?;
    let made = registrations(&served, count)?;
    served.finish()?;
    let all: u64 = made.iter().sum();
    let worst = made.iter().min().copied().unwrap_or(0);
    println!(
        "rivals {count}: {:.0} a second alone, {:.0} together ({:.2}), the worst-off {:.2} of a fair share",
        alone as f64 / RIVALRY.as_secs_f64(),
        all as f64 / RIVALRY.as_secs_f64(),
        all as f64 / alone as f64,
        worst as f64 * count as f64 / all as f64,
    );
    Ok(())
}

/// What eight nodes take that have nothing to do.
fn idle(program: &str) -> Result<()> {
    let served = Served::start(program, 8, 1)?;
    let mut console = Console::attach(&served, NODES[0])?;
    console.ask("spawn")?;
    std::thread::sleep(Duration::from_secs(1));
    let before = served.cpu_seconds()?;
    std::thread::sleep(Duration::from_secs(10));
    let taken = served.cpu_seconds()? - before;
    println!("eight idle nodes: {:.2} % of one core", taken * 10.0);
    console.quit()?;
    served.finish()?;
    Ok(())
}
