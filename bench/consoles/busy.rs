//! What a node's registrations lose beside consoles that are busy at it: each spawns a process and lets it exit, again and again, or looks
//! a name up.
use crate::cluster::{Console, Served, NODES};
use crate::figures::micros;
use std::io::Result;
use std::sync::atomic::{AtomicBool, Ordering};
use std::time::{Duration, Instant};

/// For how long registrations are made.
const TIME: Duration = Duration::from_secs(3);

/// How many nodes the cluster has. All consoles are at the first.
const COUNT: usize = 2;

/// What registrations come to.
struct Registrations {
    a_second: f64,
    worst: Duration,
}

/// Registers and unregisters a name for a while.
fn register(served: &Served) -> Result<Registrations> {
    let mut console = Console::attach(served, NODES[0])?;
    let process = console.ask("spawn")?;
    let (start, mut made, mut worst) = (Instant::now(), 0u64, Duration::ZERO);
    while start.elapsed() < TIME {
        for (line, answer) in [(format!("register x {process}"), "yes"), ("unregister x".into(), "ok")] {
            let asked = Instant::now();
            console.expect(&line, answer)?;
            worst = worst.max(asked.elapsed());
            made += 1;
        }
    }
    let a_second = made as f64 / start.elapsed().as_secs_f64();
    console.quit()?;
    Ok(Registrations { a_second, worst })
}

/// Spawns a process and lets it exit, again and again, until this is over.
fn spawn_and_exit(served: &Served, is_over: &AtomicBool) -> Result<u64> {
    let mut console = Console::attach(served, NODES[0])?;
    let mut made = 0;
    while !is_over.load(Ordering::Relaxed) {
        let process = console.ask("spawn")?;
        console.expect(&format!("exit {process}"), "ok")?;
        made += 2;
    }
    console.quit()?;
    Ok(made)
}

/// Looks a name up, again and again, until this is over.
fn look_up(served: &Served, is_over: &AtomicBool) -> Result<u64> {
    let mut console = Console::attach(served, NODES[0])?;
    let mut made = 0;
    while !is_over.load(Ordering::Relaxed) {
        console.ask("whereis x")?;
        made += 1;
    }
    console.quit()?;
    Ok(made)
}

/// What a console does until this is over; it gives the number of its calls.
type Work = fn(&Served, &AtomicBool) -> Result<u64>;

/// The registrations beside so many consoles that do this work, and how many calls those made a second.
fn beside(program: &str, count: usize, work: Work) -> Result<(Registrations, f64)> {
    let served = Served::start(program, COUNT, count + 1)?;
    let is_over = AtomicBool::new(false);
    let (registrations, calls) = std::thread::scope(|scope| {
        let others: Vec<_> = (0..count).map(|_| scope.spawn(|| work(&served, &is_over))).collect();
        let registrations = register(&served);
        is_over.store(true, Ordering::Relaxed);
        let calls = others.into_iter().map(|other| other.join().expect("a console panicked")).sum::<Result<u64>>();
        (registrations, calls)
    });
    served.finish()?;
    Ok((registrations?, calls? as f64 / TIME.as_secs_f64()))
}

/// Tells what registrations come to alone, and beside eight and forty busy consoles of both kinds.
pub fn registrations(program: &str) -> Result<()> {
    let kinds: [(&str, &[usize], Work); 2] = [("busy", &[0, 8, 40], spawn_and_exit), ("readers", &[8, 40], look_up)];
    for (kind, counts, work) in kinds {
        for count in counts {
            let (found, calls) = beside(program, *count, work)?;
            println!(
                "{kind} {count}: {:.0} registrations a second, the worst {:.1} ms, beside {calls:.0} other calls a second",
                found.a_second,
                micros(found.worst) / 1000.0,
            );
        }
    }
    Ok(())
}
