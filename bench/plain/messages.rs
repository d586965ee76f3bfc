//! What clients ask and are answered, and how it is spelled.
use std::rc::Rc;

#[derive(Clone)]
pub struct Alarm {
    pub id: u64,
    pub kind: u16,
    pub object: String,
    pub notifier: String,
    pub class: (u32, u16, u16),
    pub time: i64,
    pub text: String,
    pub cause: u16,
    pub severity: u16,
}

pub struct Record {
    pub invocation: u64,
    pub flags: u32,
    pub severity: u16,
    pub class: (u32, u16, u16),
    pub user: String,
    pub body: String,
}

pub enum Call {
    LogInit,
    OpenSystem,
    Write(Record),
    NtfInit,
    Send(Alarm),
    Subscribe { id: u32 },
}

#[derive(Clone)]
pub enum Content {
    Sent(Rc<Alarm>),
    Lost(Vec<u64>),
}

pub enum Callback {
    Written { invocation: u64 },
    Item { id: u32, content: Content },
}

#[derive(Clone, Copy)]
pub enum Reply {
    Done,
    Sent { id: u64 },
    /// An ok that tells the mark of its stream: the entry that set its mask, and the mask.
    Marked { since: u64, mask: u32 },
}

// How messages are spelled.

fn put_text(out: &mut Vec<u8>, text: &str) {
    out.extend((text.len() as u16).to_be_bytes());
    out.extend_from_slice(text.as_bytes());
}

fn put_class(out: &mut Vec<u8>, class: (u32, u16, u16)) {
    out.extend(class.0.to_be_bytes());
    out.extend(class.1.to_be_bytes());
    out.extend(class.2.to_be_bytes());
}

fn put_alarm(out: &mut Vec<u8>, alarm: &Alarm) {
    out.extend(alarm.id.to_be_bytes());
    out.extend(alarm.kind.to_be_bytes());
    put_text(out, &alarm.object);
    put_text(out, &alarm.notifier);
    put_class(out, alarm.class);
    out.extend(alarm.time.to_be_bytes());
    out.extend(0u32.to_be_bytes());
    put_text(out, &alarm.text);
    out.extend(0u32.to_be_bytes());
    out.push(4);
    out.extend(alarm.cause.to_be_bytes());
    out.extend(alarm.severity.to_be_bytes());
}

fn head(place: u8, client: u16, number: u32) -> Vec<u8> {
    let mut out = vec![place];
    out.extend(client.to_be_bytes());
    out.extend(number.to_be_bytes());
    out
}

pub fn request(client: u16, seq: u32, call: &Call) -> Vec<u8> {
    let mut out = head(1, client, seq);
    match call {
        Call::LogInit => out.push(1),
        Call::OpenSystem => out.extend([2, 3, 0]),
        Call::Write(record) => {
            out.extend([3, 3]);
            out.extend(record.invocation.to_be_bytes());
            out.extend(record.flags.to_be_bytes());
            out.extend(i64::MIN.to_be_bytes());
            out.push(2);
            put_class(&mut out, record.class);
            put_text(&mut out, &record.user);
            out.extend(record.severity.to_be_bytes());
            put_text(&mut out, &record.body);
        }
        Call::NtfInit => out.push(6),
        Call::Send(alarm) => {
            out.push(7);
            put_alarm(&mut out, alarm);
        }
        Call::Subscribe { id } => {
            out.push(8);
            out.extend(id.to_be_bytes());
            out.push(4);
        }
    }
    out
}

pub fn reply_message(client: u16, seq: u32, reply: Reply) -> Vec<u8> {
    let mut out = head(2, client, seq);
    match reply {
        Reply::Done => out.push(2),
        Reply::Sent { id } => {
            out.push(3);
            out.extend(id.to_be_bytes());
        }
        Reply::Marked { since, mask } => {
            out.extend([5, 0]);
            out.extend(since.to_be_bytes());
            out.extend(mask.to_be_bytes());
        }
    }
    out
}

pub fn item(client: u16, key: u32, number: u32, content: &Content) -> Vec<u8> {
    let mut out = head(3, client, key);
    out.extend(number.to_be_bytes());
    match content {
        Content::Sent(alarm) => {
            out.push(1);
            put_alarm(&mut out, alarm);
        }
        Content::Lost(ids) => {
            out.push(2);
            out.extend((ids.len() as u32).to_be_bytes());
            ids.iter().for_each(|id| out.extend(id.to_be_bytes()));
        }
    }
    out
}

pub fn receipt(client: u16, key: u32, number: u32) -> Vec<u8> {
    let mut out = head(4, client, key);
    out.extend(number.to_be_bytes());
    out
}
