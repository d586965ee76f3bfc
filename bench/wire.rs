//! The messages of `library_bench`, spelled and read by plain Rust: what the proved code is measured against.
use std::env;

#[derive(PartialEq)]
struct Alarm {
    id: u64,
    event_type: u16,
    object: Vec<u8>,
    notifier: Vec<u8>,
    class: (u32, u16, u16),
    event_time: i64,
    correlated: Vec<u64>,
    text: Vec<u8>,
    info: Vec<(u16, i64)>,
    cause: u16,
    severity: u16,
}

#[derive(PartialEq)]
enum Message {
    Write {
        client: u16,
        seq: u32,
        invocation: u64,
        flags: u32,
        time: i64,
        class: (u32, u16, u16),
        user: Vec<u8>,
        severity: u16,
        body: Vec<u8>,
    },
    Done { client: u16, seq: u32 },
    Item { client: u16, key: u32, number: u32, alarm: Alarm },
}

const CLASS: (u32, u16, u16) = (1, 2, 3);

fn message_of(number: u32) -> Message {
    let client = 1;
    let seq = number % 1_000_000 + 1;
    match number % 3 {
        0 => Message::Write {
            client,
            seq,
            invocation: u64::from(number),
            flags: 0,
            time: i64::from(number),
            class: CLASS,
            user: b"safApp=web".to_vec(),
            severity: 6,
            body: vec![b'w'; 100],
        },
        1 => Message::Done { client, seq },
        _ => Message::Item {
            client,
            key: seq,
            number: seq,
            alarm: Alarm {
                id: u64::from(number),
                event_type: 0x4001,
                object: b"node1".to_vec(),
                notifier: b"hw".to_vec(),
                class: CLASS,
                event_time: i64::from(number),
                correlated: Vec::new(),
                text: b"fan".to_vec(),
                info: Vec::new(),
                cause: 5,
                severity: 4,
            },
        },
    }
}

fn put_text(out: &mut Vec<u8>, text: &[u8]) {
    out.extend((text.len() as u16).to_be_bytes());
    out.extend_from_slice(text);
}

fn put_class(out: &mut Vec<u8>, class: (u32, u16, u16)) {
    out.extend(class.0.to_be_bytes());
    out.extend(class.1.to_be_bytes());
    out.extend(class.2.to_be_bytes());
}

fn put_head(out: &mut Vec<u8>, place: u8, client: u16, seq: u32) {
    out.push(place);
    out.extend(client.to_be_bytes());
    out.extend(seq.to_be_bytes());
}

fn encode(message: &Message) -> Vec<u8> {
    let mut out = Vec::new();
    match message {
        Message::Write { client, seq, invocation, flags, time, class, user, severity, body } => {
            put_head(&mut out, 1, *client, *seq);
            out.extend([3, 3]);
            out.extend(invocation.to_be_bytes());
            out.extend(flags.to_be_bytes());
            out.extend(time.to_be_bytes());
            out.push(2);
            put_class(&mut out, *class);
            put_text(&mut out, user);
            out.extend(severity.to_be_bytes());
            put_text(&mut out, body);
        }
        Message::Done { client, seq } => {
            put_head(&mut out, 2, *client, *seq);
            out.push(2);
        }
        Message::Item { client, key, number, alarm } => {
            put_head(&mut out, 3, *client, *key);
            out.extend(number.to_be_bytes());
            out.push(1);
            out.extend(alarm.id.to_be_bytes());
            out.extend(alarm.event_type.to_be_bytes());
            put_text(&mut out, &alarm.object);
            put_text(&mut out, &alarm.notifier);
            put_class(&mut out, alarm.class);
            out.extend(alarm.event_time.to_be_bytes());
            out.extend((alarm.correlated.len() as u32).to_be_bytes());
            for id in &alarm.correlated {
                out.extend(id.to_be_bytes());
            }
            put_text(&mut out, &alarm.text);
            out.extend((alarm.info.len() as u32).to_be_bytes());
            for (id, value) in &alarm.info {
                out.extend(id.to_be_bytes());
                out.extend(value.to_be_bytes());
            }
            out.push(4);
            out.extend(alarm.cause.to_be_bytes());
            out.extend(alarm.severity.to_be_bytes());
        }
    }
    out
}

struct Reader<'a>(&'a [u8]);

impl<'a> Reader<'a> {
    fn take(&mut self, count: usize) -> Option<&'a [u8]> {
        if self.0.len() < count {
            return None;
        }
        let (front, rest) = self.0.split_at(count);
        self.0 = rest;
        Some(front)
    }

    fn u8(&mut self) -> Option<u8> {
        Some(self.take(1)?[0])
    }

    fn u16(&mut self) -> Option<u16> {
        Some(u16::from_be_bytes(self.take(2)?.try_into().ok()?))
    }

    fn u32(&mut self) -> Option<u32> {
        Some(u32::from_be_bytes(self.take(4)?.try_into().ok()?))
    }

    fn u64(&mut self) -> Option<u64> {
        Some(u64::from_be_bytes(self.take(8)?.try_into().ok()?))
    }

    fn text(&mut self) -> Option<Vec<u8>> {
        let count = usize::from(self.u16()?);
        Some(self.take(count)?.to_vec())
    }

    fn name(&mut self) -> Option<Vec<u8>> {
        let text = self.text()?;
        text.iter().all(|byte| (32..=126).contains(byte)).then_some(text)
    }

    fn class(&mut self) -> Option<(u32, u16, u16)> {
        Some((self.u32()?, self.u16()?, self.u16()?))
    }

    fn alarm(&mut self) -> Option<Alarm> {
        let id = self.u64()?;
        let event_type = self.u16()?;
        let object = self.name()?;
        let notifier = self.name()?;
        let class = self.class()?;
        let event_time = self.u64()? as i64;
        let correlated = (0..self.u32()?).map(|_| self.u64()).collect::<Option<_>>()?;
        let text = self.text()?;
        let info = (0..self.u32()?)
            .map(|_| Some((self.u16()?, self.u64()? as i64)))
            .collect::<Option<_>>()?;
        if self.u8()? != 4 {
            return None;
        }
        let (cause, severity) = (self.u16()?, self.u16()?);
        Some(Alarm { id, event_type, object, notifier, class, event_time, correlated, text, info, cause, severity })
    }
}

fn decode(bytes: &[u8]) -> Option<Message> {
    let mut reader = Reader(bytes);
    let place = reader.u8()?;
    let client = reader.u16()?;
    let seq = reader.u32()?;
    if !(1..=4096).contains(&client) || seq == 0 {
        return None;
    }
    let message = match place {
        1 => {
            if reader.take(2)? != [3, 3] {
                return None;
            }
            let invocation = reader.u64()?;
            let flags = reader.u32()?;
            let time = reader.u64()? as i64;
            if reader.u8()? != 2 {
                return None;
            }
            let class = reader.class()?;
            let user = reader.name()?;
            let severity = reader.u16()?;
            let body = reader.text()?;
            Message::Write { client, seq, invocation, flags, time, class, user, severity, body }
        }
        2 => {
            if reader.u8()? != 2 {
                return None;
            }
            Message::Done { client, seq }
        }
        3 => {
            let number = reader.u32()?;
            if number == 0 || reader.u8()? != 1 {
                return None;
            }
            let alarm = reader.alarm()?;
            Message::Item { client, key: seq, number, alarm }
        }
        _ => return None,
    };
    reader.0.is_empty().then_some(message)
}

fn main() {
    let count: u32 = env::args().nth(1).map_or(10, |word| word.parse().expect("a count"));
    let (mut length, mut sum) = (0u64, 0u64);
    for number in 0..count {
        let message = message_of(number);
        let bytes = encode(&message);
        assert!(decode(&bytes).is_some_and(|found| found == message));
        length += bytes.len() as u64;
        sum += bytes.iter().copied().map(u64::from).sum::<u64>();
    }
    println!("messages={count} bytes={length} sum={sum}");
}
