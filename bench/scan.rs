//! The records of `library_bench`, printed and read back by plain slices: what the proved reader is measured against.
//! With a third word the records go to that path too, for `grep`.
use std::env;
use std::fs;

const START: u64 = 1_704_067_200;
const ROUNDS: u32 = 20;

// The civil date of a day counted from 1970-01-01.
fn civil(days: u64) -> (u64, u64, u64) {
    let z = days + 719_468;
    let era = z / 146_097;
    let doe = z % 146_097;
    let yoe = (doe - doe / 1_460 + doe / 36_524 - doe / 146_096) / 365;
    let doy = doe - (365 * yoe + yoe / 4 - yoe / 100);
    let mp = (5 * doy + 2) / 153;
    let day = doy - (153 * mp + 2) / 5 + 1;
    let month = if mp < 10 { mp + 3 } else { mp - 9 };
    (yoe + era * 400 + u64::from(month <= 2), month, day)
}

enum Piece {
    Plain(&'static str),
    Fixed(usize),
    Body,
}
use Piece::{Body, Fixed, Plain};

fn system() -> Vec<Piece> {
    let mut pieces = vec![Fixed(10), Plain(" ")];
    for gap in [":", ":", " ", "/", "/"] {
        pieces.extend([Fixed(2), Plain(gap)]);
    }
    pieces.extend([Fixed(4), Plain(" "), Fixed(2), Plain(" "), Fixed(12), Plain(" \""), Body, Plain("\"")]);
    pieces
}

fn class_c() -> Vec<Piece> {
    let mut pieces = vec![Fixed(10), Plain(" "), Fixed(18), Plain(" ")];
    pieces.extend([Fixed(2), Fixed(2), Fixed(2), Fixed(2), Plain(" ")]);
    pieces.extend([Fixed(2), Fixed(3), Fixed(2), Fixed(3), Fixed(2), Fixed(4), Plain(" ")]);
    pieces.extend([Fixed(29), Fixed(1), Plain(" "), Fixed(30), Plain(" \""), Body, Plain("\"")]);
    pieces
}

fn print(number: u32, all: bool) -> String {
    let second = START + u64::from(number);
    let (year, month, day) = civil(second / 86_400);
    let of_day = second % 86_400;
    let (hour, minute, sec) = (of_day / 3_600, of_day / 60 % 60, of_day % 60);
    let body = "service started";
    let text = if all {
        let months = ["Jan", "Feb", "Mar", "Apr", "May", "Jun", "Jul", "Aug", "Sep", "Oct", "Nov", "Dec"];
        let days = ["Mon", "Tue", "Wed", "Thu", "Fri", "Sat", "Sun"];
        let half = if hour < 12 { "am" } else { "pm" };
        let clock = if hour % 12 == 0 { 12 } else { hour % 12 };
        let name = days[((second / 86_400 + 3) % 7) as usize];
        let hex: String = body.bytes().map(|byte| format!("{byte:02x}")).collect();
        format!(
            "{number:>10} 0x{:016x} {clock:02}{minute:02}{sec:02}{half} {month:02}{}{day:02}{name}{:02}{year:04} \
             NCI[0x00000001,0x0002,0x0003]C {hex} \"{body}\"",
            second * 1_000_000_000,
            months[month as usize - 1],
            year % 100
        )
    } else {
        format!(
            "{number:>10} {hour:02}:{minute:02}:{sec:02} {month:02}/{day:02}/{year:04} IN {:<12} \"{body}\"",
            "safApp=web"
        )
    };
    format!("{text:<255.255}\n")
}

// The texts of the tokens in a record.
fn scan(pieces: &[Piece], bytes: &[u8]) -> Option<Vec<Vec<u8>>> {
    let body = bytes.strip_suffix(b"\n")?;
    let end = body.iter().rposition(|byte| *byte != b' ').map_or(0, |place| place + 1);
    let least: usize = pieces.iter().map(|p| match p { Plain(t) => t.len(), Fixed(n) => *n, Body => 0 }).sum();
    let free = end.checked_sub(least)?;
    let mut rest = &body[..end];
    let mut texts = Vec::new();
    for piece in pieces {
        let places = match piece {
            Plain(text) => {
                rest = rest.strip_prefix(text.as_bytes())?;
                continue;
            }
            Fixed(places) => *places,
            Body => free,
        };
        let (text, behind) = rest.split_at_checked(places)?;
        texts.push(text.to_vec());
        rest = behind;
    }
    rest.is_empty().then_some(texts)
}

fn main() {
    let count: u32 = env::args().nth(1).map_or(10, |word| word.parse().expect("a number"));
    let all = env::args().nth(2).is_some_and(|word| word == "all");
    let bytes: Vec<u8> = (0..count).flat_map(|number| print(number, all).into_bytes()).collect();
    if let Some(path) = env::args().nth(3) {
        fs::write(path, &bytes).expect("written");
    }
    let pieces = if all { class_c() } else { system() };
    let (mut found, mut gone) = (0u64, 0u64);
    for _ in 0..ROUNDS {
        found += bytes
            .chunks_exact(256)
            .filter(|rec| scan(&pieces, rec).is_some_and(|texts| texts.get(3).is_some_and(|text| text == b"00")))
            .count() as u64;
        gone += bytes.len() as u64;
    }
    println!("found={found} bytes={gone}");
}
