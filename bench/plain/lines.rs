//! The lines of the scripts.
use crate::messages::{Alarm, Call, Record};

pub fn number<T: std::str::FromStr>(word: &str) -> T {
    word.parse().unwrap_or_else(|_| panic!("no number: {word}"))
}

pub fn words_of(line: &str) -> Vec<&str> {
    assert!(!line.contains('\\'), "no line of these scripts: {line}");
    let mut words = Vec::new();
    let (mut begin, mut quoted) = (0, false);
    for (at, byte) in line.bytes().enumerate() {
        match byte {
            b'"' => quoted = !quoted,
            b' ' if !quoted => {
                words.push(&line[begin..at]);
                begin = at + 1;
            }
            _ => {}
        }
    }
    words.push(&line[begin..]);
    words
}

pub fn option<'a>(word: &'a str, name: &str) -> Option<&'a str> {
    word.strip_prefix(name)?.strip_prefix('=')
}

fn quoted(word: &str, name: &str) -> Option<String> {
    Some(option(word, name)?.strip_prefix('"')?.strip_suffix('"')?.to_string())
}

fn class_of(word: &str) -> Option<(u32, u16, u16)> {
    let mut parts = option(word, "class")?.split('.');
    Some((number(parts.next()?), number(parts.next()?), number(parts.next()?)))
}

pub fn call_of(words: &[&str]) -> Option<Call> {
    Some(match words {
        ["log", _, "init", "A.2.1"] => Call::LogInit,
        ["log", _, "open", "system"] => Call::OpenSystem,
        ["log", _, "write", "system", inv, flags, "gen", sev, class, user, body] => Call::Write(Record {
            invocation: number(option(inv, "inv")?),
            flags: number(option(flags, "flags")?),
            severity: number(option(sev, "sev")?),
            class: class_of(class)?,
            user: quoted(user, "user")?,
            body: quoted(body, "body")?,
        }),
        ["ntf", _, "init", "A.1.1"] => Call::NtfInit,
        ["ntf", _, "subscribe", id, "filter", "alarm"] => Call::Subscribe { id: number(id) },
        ["ntf", _, "send", "alarm", kind, obj, by, class, time, text, cause, sev] => Call::Send(Alarm {
            id: 0,
            kind: u16::from_str_radix(option(kind, "type")?.strip_prefix("0x")?, 16).ok()?,
            object: quoted(obj, "obj")?,
            notifier: quoted(by, "by")?,
            class: class_of(class)?,
            time: number(option(time, "time")?),
            text: quoted(text, "text")?,
            cause: number(option(cause, "cause")?),
            severity: number(option(sev, "sev")?),
        }),
        _ => return None,
    })
}
