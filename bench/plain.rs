//! The same work in plain Rust, unproved: the two kinds as they would be written without contracts. Run by ./bench/run.
use std::env;
use std::hint::black_box;
use std::time::Instant;

#[derive(Clone, Copy)]
struct Claim<T> {
    bin: usize,
    stage: T,
}

#[derive(Clone, Copy)]
struct Turn {
    ticket: u32,
    inside: bool,
}

#[derive(Clone, Copy, PartialEq)]
enum Stage {
    Look,
    Swap(u64),
    Inside,
}

struct Memory<T> {
    words: Vec<u64>,
    records: Vec<Option<Claim<T>>>,
}

#[derive(Debug)]
struct Refused;

impl<T: Copy> Memory<T> {
    fn new(sessions: usize) -> Self {
        Memory { words: vec![0], records: vec![None; sessions] }
    }

    fn own(&self, sessions: usize, session: usize, bin: usize) -> Result<Option<Claim<T>>, Refused> {
        if self.words.len() != 1 || self.records.len() != sessions || session >= sessions || bin >= 1 {
            return Err(Refused);
        }
        match self.records[session] {
            Some(claim) if claim.bin >= 1 => Err(Refused),
            own => Ok(own),
        }
    }
}

fn ticket_turn(memory: &mut Memory<Turn>, sessions: usize, session: usize) -> Result<u64, Refused> {
    let None = memory.own(sessions, session, 0)? else { return Err(Refused) };
    let word = memory.words[0];
    let (next, served) = ((word >> 32) as u32, word as u32);
    if next.wrapping_sub(served) as usize > sessions {
        return Err(Refused);
    }
    memory.words[0] = (next.wrapping_add(1) as u64) << 32 | served as u64;
    memory.records[session] = Some(Claim { bin: 0, stage: Turn { ticket: next, inside: next == served } });
    let Some(claim) = memory.own(sessions, session, 0)? else { return Err(Refused) };
    if !claim.stage.inside || claim.stage.ticket != served {
        return Err(Refused);
    }
    let word = memory.words[0];
    let (next, served) = ((word >> 32) as u32, word as u32);
    if next.wrapping_sub(served) as usize > sessions {
        return Err(Refused);
    }
    memory.words[0] = (next as u64) << 32 | served.wrapping_add(1) as u64;
    memory.records[session] = None;
    Ok(2)
}

fn central_turn(memory: &mut Memory<Stage>, sessions: usize, session: usize) -> Result<u64, Refused> {
    const LOCK_BIT: u64 = 1 << 63;
    let None = memory.own(sessions, session, 0)? else { return Err(Refused) };
    let word = memory.words[0];
    let stage = if word < LOCK_BIT { Stage::Swap(word) } else { Stage::Look };
    memory.records[session] = Some(Claim { bin: 0, stage });
    let Some(Claim { stage: Stage::Swap(seen), .. }) = memory.own(sessions, session, 0)? else { return Err(Refused) };
    if seen >= LOCK_BIT || memory.words[0] != seen {
        return Err(Refused);
    }
    memory.words[0] = seen | LOCK_BIT;
    memory.records[session] = Some(Claim { bin: 0, stage: Stage::Inside });
    let Some(claim) = memory.own(sessions, session, 0)? else { return Err(Refused) };
    if claim.stage != Stage::Inside {
        return Err(Refused);
    }
    memory.words[0] = (memory.words[0] % LOCK_BIT + 1) % LOCK_BIT;
    memory.records[session] = None;
    Ok(3)
}

fn time<T: Copy>(
    name: &str,
    sessions: usize,
    count: u64,
    turn: fn(&mut Memory<T>, usize, usize) -> Result<u64, Refused>,
) {
    let mut memory = Memory::new(sessions);
    let start = Instant::now();
    let (mut steps, mut session) = (0, 0);
    for _ in 0..count {
        steps += turn(black_box(&mut memory), sessions, session).expect("granted");
        session = if session + 1 < sessions { session + 1 } else { 0 };
    }
    let spent = start.elapsed().as_nanos();
    eprintln!("plain {name}, {sessions} sessions: {steps} steps in {spent} ns");
    println!("{name} {sessions} {steps} {:016X} true", memory.words[0]);
}

fn main() {
    let count = env::args().nth(1).map_or(1000, |word| word.parse().expect("a number of turns"));
    for sessions in [1, 1024] {
        time("ticket", sessions, count, ticket_turn);
        time("central", sessions, count, central_turn);
    }
}
