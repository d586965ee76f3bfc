//! The two services: what a request comes to, with the deeds that it wants done on the disk.
use crate::disk::Deed;
use crate::messages::{Alarm, Call, Content, Reply};
use std::collections::{HashMap, VecDeque};
use std::rc::Rc;

const RECORD: u64 = 256;
const PER_FILE: u64 = 262_144 / RECORD;
const ROTATED: usize = 4;
// Each severity passes: these scripts set no mask.
const ALL_PASS: Reply = Reply::Marked { since: 0, mask: 127 };
pub const WINDOW: usize = 32;

const ALARM_FORMAT: &str = "@Cr @Ct @Nt @Ne6 @No30 @Ng30 \"@Cb\"";
const LOG_FORMAT: &str = "@Cr @Ch:@Cn:@Cs @Cm/@Cd/@CY @Sv @Sl \"@Cb\"";

fn civil(second: u64) -> (u64, u64, u64, u64, u64, u64) {
    let z = second / 86_400 + 719_468;
    let era = z / 146_097;
    let doe = z % 146_097;
    let yoe = (doe - doe / 1_460 + doe / 36_524 - doe / 146_096) / 365;
    let doy = doe - (365 * yoe + yoe / 4 - yoe / 100);
    let mp = (5 * doy + 2) / 153;
    let month = if mp < 10 { mp + 3 } else { mp - 9 };
    let year = yoe + era * 400 + u64::from(month <= 2);
    let of_day = second % 86_400;
    (year, month, doy - (153 * mp + 2) / 5 + 1, of_day / 3_600, of_day / 60 % 60, of_day % 60)
}

fn stamp(second: u64) -> String {
    let (year, month, day, hour, minute, of_minute) = civil(second);
    format!("{year:04}{month:02}{day:02}_{hour:02}{minute:02}{of_minute:02}")
}

#[derive(Clone)]
pub struct Stream {
    word: &'static str,
    file: &'static str,
    format: &'static str,
    records: u64,
    created: u64,
    current: Rc<str>,
    closed: VecDeque<Rc<str>>,
}

impl Stream {
    pub fn new(word: &'static str, file: &'static str, format: &'static str) -> Stream {
        Stream { word, file, format, records: 0, created: 0, current: "".into(), closed: VecDeque::new() }
    }

    fn make_current(&mut self, created: u64) -> Deed {
        self.created = created;
        self.current = format!("{}_{}.log", self.file, stamp(created)).into();
        Deed::Create { name: self.current.clone() }
    }

    pub fn begin(&mut self, second: u64) -> [Deed; 4] {
        let name: Rc<str> = format!("{}.cfg", self.file).into();
        let text = format!(
            "STREAM: {}\nVERSION: A.02.01\nFORMAT: {}\nMAX_FILE_SIZE: 262144\nRECORD_SIZE: 256\nFULL_ACTION: ROTATE\nROTATED_FILES: 4\nHA: 0\n",
            self.word, self.format
        );
        [
            Deed::Create { name: name.clone() },
            Deed::Write { name: name.clone(), at: 0, bytes: text.as_bytes().into() },
            Deed::Sync { name },
            self.make_current(second),
        ]
    }

    /// The number of the next record.
    pub fn next(&self) -> u64 {
        self.records + 1
    }

    /// The number, counted from 0, of the first record whose file stands.
    fn first_standing(&self) -> u64 {
        self.records.div_ceil(PER_FILE).saturating_sub(ROTATED as u64) * PER_FILE
    }

    /// The deeds of one more record. The last second that stands in a name is moved on where a file is changed.
    pub fn store(&mut self, last: &mut u64, now: u64, record: Rc<[u8]>) -> Vec<Deed> {
        let slot = self.records % PER_FILE;
        let mut deeds = Vec::with_capacity(2);
        if slot == 0 && self.records > 0 {
            let closing = now.max(*last + 1);
            let closed: Rc<str> = format!("{}_{}_{}.log", self.file, stamp(self.created), stamp(closing)).into();
            deeds.push(Deed::Rename { from: self.current.clone(), to: closed.clone() });
            *last = closing + 1;
            self.closed.push_back(closed);
            deeds.push(self.make_current(*last));
            if self.closed.len() + 1 > ROTATED {
                deeds.extend(self.closed.pop_front().map(|name| Deed::Remove { name }));
            }
        }
        deeds.push(Deed::Write { name: self.current.clone(), at: slot * RECORD, bytes: record });
        deeds.push(Deed::Sync { name: self.current.clone() });
        self.records += 1;
        deeds
    }
}

/// The bytes of a record with this text.
pub fn record_of(text: &str) -> Rc<[u8]> {
    format!("{text:<255.255}\n").into_bytes().into()
}

#[derive(Clone)]
struct Subscription {
    client: u16,
    key: u32,
    held: VecDeque<(u32, Content)>,
    made: u32,
    through: u32,
    lost: Vec<u64>,
}

#[derive(Clone, Default)]
struct Window {
    accepted: u32,
    replies: VecDeque<Reply>,
}

#[derive(Clone)]
pub struct Service {
    windows: HashMap<u16, Window>,
    subscriptions: Vec<Subscription>,
    capacity: usize,
    ids: u64,
    stamp: u64,
    alarm: Stream,
    system: Stream,
    // the alarms whose records stand, each with its record's number
    alarms: VecDeque<(u64, Rc<Alarm>)>,
}

/// The streams that are always there, and the deeds that make them.
pub fn begin_streams(second: u64) -> (Stream, Stream, Vec<Deed>) {
    let mut alarm = Stream::new("alarm", "saLogAlarm", ALARM_FORMAT);
    let mut notification = Stream::new("notification", "saLogNotification", ALARM_FORMAT);
    let mut system = Stream::new("system", "saLogSystem", LOG_FORMAT);
    let deeds = [alarm.begin(second), notification.begin(second + 1), system.begin(second + 2)];
    (alarm, system, deeds.into_iter().flatten().collect())
}

impl Service {
    pub fn begin(second: u64, capacity: usize) -> (Service, Vec<Deed>) {
        let (alarm, system, deeds) = begin_streams(second);
        let service = Service {
            windows: HashMap::new(),
            subscriptions: Vec::new(),
            capacity,
            ids: 0,
            stamp: second + 2,
            alarm,
            system,
            alarms: VecDeque::new(),
        };
        (service, deeds)
    }

    /// The service of a server that joins, which shares nothing with this one.
    pub fn handed_on(&self) -> Service {
        let mut service = self.clone();
        let held = service.subscriptions.iter_mut().flat_map(|one| &mut one.held).filter_map(|held| match &mut held.1 {
            Content::Sent(alarm) => Some(alarm),
            Content::Lost(_) => None,
        });
        for alarm in service.alarms.iter_mut().map(|kept| &mut kept.1).chain(held) {
            *alarm = Rc::new((**alarm).clone());
        }
        service
    }

    /// The reply to a call that was accepted before.
    pub fn reply_to(&self, client: u16, seq: u32) -> Option<Reply> {
        let window = self.windows.get(&client)?;
        let back = (window.accepted + 1 - seq) as usize;
        (back > 0).then(|| window.replies[window.replies.len() - back])
    }

    /// All items that are held, each with its client, its subscription and its number.
    pub fn items(&self) -> Vec<(u16, u32, u32, Content)> {
        let held = |one: &Subscription| {
            let (client, key) = (one.client, one.key);
            one.held.iter().map(move |(number, content)| (client, key, *number, content.clone())).collect::<Vec<_>>()
        };
        self.subscriptions.iter().flat_map(held).collect()
    }

    fn offer(&mut self, alarm: &Rc<Alarm>) {
        for one in &mut self.subscriptions {
            if one.held.len() < self.capacity {
                one.made += 1;
                one.held.push_back((one.made, Content::Sent(alarm.clone())));
            } else {
                one.lost.push(alarm.id);
            }
        }
    }

    /// Applies an accepted call: its reply, and the deeds that come before it.
    pub fn apply(&mut self, client: u16, seq: u32, call: &Call, now: i64) -> (Reply, Vec<Deed>) {
        let second = (now / 1_000_000_000) as u64;
        let mut deeds = Vec::new();
        let reply = match call {
            Call::Write(record) => {
                let (year, month, day, hour, minute, of_minute) = civil(second);
                let severity = ["EM", "AL", "CR", "ER", "WA", "NO", "IN"][usize::from(record.severity)];
                let text = format!(
                    "{:>10} {hour:02}:{minute:02}:{of_minute:02} {month:02}/{day:02}/{year:04} {severity} {} \"{}\"",
                    self.system.next(),
                    record.user,
                    record.body
                );
                deeds = self.system.store(&mut self.stamp, second, record_of(&text));
                ALL_PASS
            }
            Call::Send(alarm) => {
                self.ids += 1;
                let sent = Rc::new(Alarm { id: self.ids, ..alarm.clone() });
                let text = format!(
                    "{:>10} 0x{now:016x} 0x{:016x} 0x{:04x} {:<30.30} {:<30.30} \"{}\"",
                    self.alarm.next(),
                    sent.time,
                    sent.kind,
                    sent.object,
                    sent.notifier,
                    sent.text
                );
                let number = self.alarm.records;
                deeds = self.alarm.store(&mut self.stamp, second, record_of(&text));
                let first = self.alarm.first_standing();
                while self.alarms.front().is_some_and(|kept| kept.0 < first) {
                    self.alarms.pop_front();
                }
                self.alarms.push_back((number, sent.clone()));
                self.offer(&sent);
                Reply::Sent { id: self.ids }
            }
            Call::Subscribe { .. } => {
                self.subscriptions.push(Subscription {
                    client,
                    key: seq,
                    held: VecDeque::new(),
                    made: 0,
                    through: 0,
                    lost: Vec::new(),
                });
                Reply::Done
            }
            Call::OpenSystem => ALL_PASS,
            Call::LogInit | Call::NtfInit => Reply::Done,
        };
        let window = self.windows.entry(client).or_default();
        window.accepted += 1;
        window.replies.push_back(reply);
        if window.replies.len() > WINDOW {
            window.replies.pop_front();
        }
        (reply, deeds)
    }

    /// Whether a receipt is new; then the items up to it go, and those that were lost become one.
    pub fn received(&mut self, client: u16, key: u32, number: u32) -> bool {
        let Some(one) = self.subscriptions.iter_mut().find(|one| one.client == client && one.key == key) else {
            return false;
        };
        if number <= one.through || number > one.made {
            return false;
        }
        one.through = number;
        while one.held.front().is_some_and(|held| held.0 <= number) {
            one.held.pop_front();
        }
        if !one.lost.is_empty() {
            one.made += 1;
            one.held.push_back((one.made, Content::Lost(std::mem::take(&mut one.lost))));
        }
        true
    }
}
