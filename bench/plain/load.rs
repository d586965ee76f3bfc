//! The large run: its script, made turn by turn, played by two servers; and its writes and syncs alone.
use crate::disk::{Deed, Disk};
use crate::service::{begin_streams, record_of};
use crate::world::World;
use std::fmt::Write;
use std::io;
use std::rc::Rc;

const OPENING: &str = "cluster start=1704067200000000000 queue=2 callbacks=256";
const START_SECOND: u64 = 1_704_067_200;

// The lines of one turn.
fn turn_of(turn: u64, state: u64) -> String {
    let number = state / 65_536;
    let mut lines = if turn % 10 == 0 {
        let severity = number % 6;
        format!("ntf 2 send alarm type=0x4001 obj=\"g\" by=\"g\" class=0.0.0 time={number} text=\"t\" cause=0 sev={severity}\n")
    } else {
        let severity = number % 7;
        format!("log 1 write system inv={turn} flags=0 gen sev={severity} class=0.0.0 user=\"g\" body=\"{number}\"\n")
    };
    if turn % 16 == 0 {
        lines.push_str("settle\n");
    }
    if turn % 1_000 == 0 {
        let place = if turn / 1_000 % 2 == 1 { "a" } else { "b" };
        write!(lines, "crash {place}\nrestart {place}\nsettle\n").expect("memory");
    }
    lines
}

/// Plays the script of so many turns from a seed on, and answers the line that tells what it came to.
pub fn load(count: u64, seed: u64) -> io::Result<String> {
    let mut world = World::begin(OPENING, 2, false)?;
    for line in ["log 1 init A.2.1", "log 1 open system", "ntf 2 init A.1.1", "settle"] {
        world.play(line)?;
    }
    let mut state = seed % (1 << 31);
    for turn in 1..=count {
        state = (state * 1_103_515_245 + 12_345) % (1 << 31);
        for line in turn_of(turn, state).lines() {
            world.play(line)?;
        }
    }
    world.play("settle")?;
    world.summary()
}

/// Makes the writes and syncs of the script of so many turns, with records that are all the same.
pub fn writes(count: u64) -> io::Result<()> {
    let mut disk = Disk::default();
    let (mut alarm, mut system, deeds) = begin_streams(START_SECOND);
    disk.perform(&deeds)?;
    let record = record_of("a record");
    let mut stamp = START_SECOND + 2;
    for turn in 1..=count {
        let stream = if turn % 10 == 0 { &mut alarm } else { &mut system };
        disk.perform(&stream.store(&mut stamp, START_SECOND, record.clone()))?;
    }
    Ok(())
}

/// Makes the writes and syncs by which so many entries join a journal and their records are stored, with frames and records that are all
/// the same.
pub fn joins(count: u64) -> io::Result<()> {
    let mut disk = Disk::default();
    let (mut alarm, mut system, deeds) = begin_streams(START_SECOND);
    disk.perform(&deeds)?;
    let (name, record): (Rc<str>, _) = ("journal.dat".into(), record_of("a record"));
    let (closed, open, frame): (Rc<[u8]>, Rc<[u8]>, Rc<[u8]>) = ([0].into(), [1].into(), vec![0; 120].into());
    let durable = |at: u64, bytes: &Rc<[u8]>| [Deed::Write { name: name.clone(), at, bytes: bytes.clone() }, Deed::Sync { name: name.clone() }];
    disk.perform(&[Deed::Create { name: name.clone() }])?;
    disk.perform(&durable(0, &closed))?;
    let (mut end, mut stamp) = (0, START_SECOND + 2);
    for turn in 1..=count {
        disk.perform(&durable(end + 1, &frame))?;
        disk.perform(&durable(end, &open))?;
        end += frame.len() as u64;
        let stream = if turn % 2 == 0 { &mut alarm } else { &mut system };
        disk.perform(&stream.store(&mut stamp, START_SECOND, record.clone()))?;
    }
    Ok(())
}
