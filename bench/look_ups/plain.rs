//! What a look-up costs in ordinary Rust: a `HashMap` of std with its own hash, from texts of the same size to owners of the same size.
use std::collections::HashMap;
use std::hash::{Hash, Hasher};
use std::time::Instant;

const LOOK_UPS: u64 = 300_000;
const TIMES: usize = 9;

/// A name or a node: at most 64 bytes, held where it stands.
#[derive(Clone, Copy)]
struct Text {
    len: u32,
    bytes: [u8; 64],
}

impl Text {
    fn new(text: &str) -> Text {
        let mut bytes = [0; 64];
        bytes[..text.len()].copy_from_slice(text.as_bytes());
        Text { len: text.len() as u32, bytes }
    }

    fn as_bytes(&self) -> &[u8] {
        &self.bytes[..self.len as usize]
    }
}

impl PartialEq for Text {
    fn eq(&self, other: &Text) -> bool {
        self.as_bytes() == other.as_bytes()
    }
}

impl Eq for Text {}

impl Hash for Text {
    fn hash<H: Hasher>(&self, state: &mut H) {
        self.as_bytes().hash(state);
    }
}

#[derive(Clone, Copy)]
struct Process {
    #[allow(dead_code)]
    node: Text,
    serial: u32,
}

fn next(seed: u64) -> u64 {
    seed.wrapping_mul(6_364_136_223_846_793_005).wrapping_add(1_442_695_040_888_963_407)
}

fn timed(table: &HashMap<Text, Process>, names: &[Text]) -> u64 {
    let mut times = Vec::new();
    for _ in 0..TIMES {
        let (start, mut seed, mut found) = (Instant::now(), 1u64, 0u64);
        for _ in 0..LOOK_UPS {
            seed = next(seed);
            let name = &names[(seed >> 33) as usize % names.len()];
            if let Some(process) = std::hint::black_box(table.get(name).copied()) {
                found += u64::from(process.serial > 0);
            }
        }
        assert_eq!(found, LOOK_UPS);
        times.push(start.elapsed().as_nanos() as u64);
    }
    times.sort();
    times[TIMES / 2] / LOOK_UPS
}

fn main() {
    for word in std::env::args().skip(1) {
        let count: usize = word.parse().expect("a number of names");
        let names: Vec<Text> = (0..count).map(|number| Text::new(&format!("n{number:07}"))).collect();
        let table = names.iter().zip(1..).map(|(name, serial)| (*name, Process { node: Text::new("a"), serial })).collect();
        println!("{count} names: {} ns a look-up", timed(&table, &names));
    }
}
