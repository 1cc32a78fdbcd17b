//! Bare pairs: what a round trip costs where nothing is done.
use crate::figures::{median, RUNS};
use std::io::{Read, Result, Write};
use std::net::{TcpListener, TcpStream};
use std::sync::mpsc::channel;
use std::thread;
use std::time::{Duration, Instant};

/// The round trips of both pairs, in which all else is told.
pub struct Trips {
    pub echo: Duration,
    pub channel: Duration,
}

impl Trips {
    /// The median of several runs of so many trips.
    pub fn measure(trips: u32) -> Result<Trips> {
        let echoes = (0..RUNS).map(|_| echo_round_trip(trips)).collect::<Result<Vec<Duration>>>()?;
        let channels = (0..RUNS).map(|_| channel_round_trip(trips)).collect();
        Ok(Trips { echo: median(echoes), channel: median(channels) })
    }

    /// How many echoes take this time.
    pub fn in_echoes(&self, time: Duration) -> f64 {
        time.as_secs_f64() / self.echo.as_secs_f64()
    }

    /// How many trips over channels take this time.
    pub fn in_channel_trips(&self, time: Duration) -> f64 {
        time.as_secs_f64() / self.channel.as_secs_f64()
    }
}

/// A round trip of a byte to an echo server over loopback.
fn echo_round_trip(trips: u32) -> Result<Duration> {
    let listener = TcpListener::bind("127.0.0.1:0")?;
    let address = listener.local_addr()?;
    let server = thread::spawn(move || -> Result<()> {
        let (mut stream, _) = listener.accept()?;
        stream.set_nodelay(true)?;
        let mut byte = [0];
        while stream.read(&mut byte)? == 1 {
            stream.write_all(&byte)?;
        }
        Ok(())
    });
    let mut stream = TcpStream::connect(address)?;
    stream.set_nodelay(true)?;
    let mut byte = [1];
    let start = Instant::now();
    for _ in 0..trips {
        stream.write_all(&byte)?;
        stream.read_exact(&mut byte)?;
    }
    let taken = start.elapsed() / trips;
    drop(stream);
    server.join().expect("the echo server panicked")?;
    Ok(taken)
}

/// A round trip of a number to another thread over plain channels.
fn channel_round_trip(trips: u32) -> Duration {
    let (there, asked) = channel::<u32>();
    let (back, answered) = channel::<u32>();
    let other = thread::spawn(move || {
        for number in asked {
            if back.send(number).is_err() {
                return;
            }
        }
    });
    let start = Instant::now();
    for number in 0..trips {
        there.send(number).expect("the other thread ended");
        answered.recv().expect("the other thread ended");
    }
    let taken = start.elapsed() / trips;
    drop(there);
    other.join().expect("the other thread panicked");
    taken
}
