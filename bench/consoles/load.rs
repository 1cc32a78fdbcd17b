//! Eight consoles that call without a pause.
use crate::cluster::{Console, Served, NODES};
use std::io::{Error, ErrorKind, Result};
use std::sync::atomic::{AtomicU64, Ordering};
use std::thread;
use std::time::{Duration, Instant};

/// Makes mixed calls at a node until then.
fn call(served: &Served, node: &str, until: Instant, calls: &AtomicU64) -> Result<()> {
    let mut console = Console::attach(served, node)?;
    let mut process = console.ask("spawn")?;
    let mut round = 0u64;
    while Instant::now() < until {
        let name = format!("{node}{}", round % 100);
        console.expect(&format!("register {name} {process}"), "yes")?;
        console.expect(&format!("whereis {name}"), &process)?;
        // Each node has a resource of its own, so that every lock call is granted.
        console.expect(&format!("set_lock {process} {node} r all 0"), "true")?;
        console.expect(&format!("del_lock {process} {node} r all"), "true")?;
        if round % 10 == 9 {
            console.expect(&format!("exit {process}"), "ok")?;
            process = console.ask("spawn")?;
        } else {
            console.expect(&format!("unregister {name}"), "ok")?;
        }
        round += 1;
        calls.fetch_add(5, Ordering::Relaxed);
    }
    console.quit()
}

/// Eight consoles call for so long: how many calls a second, and what memory there is after a sixth of the time and at its end.
pub fn eight_consoles(program: &str, time: Duration) -> Result<()> {
    let served = Served::start(program, 8, 8)?;
    let calls = AtomicU64::new(0);
    let until = Instant::now() + time;
    let (early, late) = thread::scope(|scope| -> Result<(f64, f64)> {
        let callers: Vec<_> = NODES
            .iter()
            .map(|node| scope.spawn(|| call(&served, node, until, &calls)))
            .collect();
        thread::sleep(time / 6);
        let early = served.megabytes()?;
        thread::sleep(time - time / 6 - Duration::from_millis(200));
        let late = served.megabytes()?;
        for caller in callers {
            caller.join().map_err(|_| Error::new(ErrorKind::Other, "a caller panicked"))??;
        }
        Ok((early, late))
    })?;
    served.finish()?;
    println!(
        "eight consoles for {} s: {:.0} calls a second; {early:.0} MB after {} s, {late:.0} MB at the end; closed",
        time.as_secs(),
        calls.load(Ordering::Relaxed) as f64 / time.as_secs_f64(),
        time.as_secs() / 6,
    );
    Ok(())
}
