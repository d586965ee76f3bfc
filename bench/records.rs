//! The records of `library_bench`, printed by plain `format!`: what the proved printer is measured against.
use std::env;

const START: u64 = 1_704_067_200;

// The civil date of a day counted from 1970-01-01.
fn civil(days: u64) -> (u64, u64, u64) {
    let z = days + 719_468;
    let era = z / 146_097;
    let doe = z % 146_097;
    let yoe = (doe - doe / 1_460 + doe / 36_524 - doe / 146_096) / 365;
    let doy = doe - (365 * yoe + yoe / 4 - yoe / 100);
    let mp = (5 * doy + 2) / 153;
    let day = doy - (153 * mp + 2) / 5 + 1;
    let month = if mp < 10 { mp + 3 } else { mp - 9 };
    let year = yoe + era * 400 + u64::from(month <= 2);
    (year, month, day)
}

struct Record {
    second: u64,
    severity: &'static str,
    user: String,
    body: String,
}

fn record_of(number: u32) -> Record {
    Record {
        second: START + u64::from(number % 1_000_000),
        severity: "IN",
        user: String::from("safApp=web"),
        body: String::from("service started"),
    }
}

fn print_record(number: u32, rec: &Record) -> String {
    let (year, month, day) = civil(rec.second / 86_400);
    let of_day = rec.second % 86_400;
    let (hour, minute, second) = (of_day / 3_600, of_day / 60 % 60, of_day % 60);
    let text = format!(
        "{number:>10} {hour:02}:{minute:02}:{second:02} {month:02}/{day:02}/{year:04} {} {} \"{}\"",
        rec.severity, rec.user, rec.body
    );
    format!("{text:<255.255}\n")
}

fn main() {
    let count: u32 = env::args().nth(1).map_or(10, |word| word.parse().expect("a count"));
    let (mut bytes, mut sum) = (0u64, 0u64);
    for number in 0..count {
        let text = print_record(number, &record_of(number));
        bytes += text.len() as u64;
        sum += text.bytes().map(u64::from).sum::<u64>();
    }
    println!("records={count} bytes={bytes} sum={sum}");
}
