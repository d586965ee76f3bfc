//! Clients, the net, two servers or three, and the events.
use crate::disk::{Deed, Disk, ROOT};
use crate::lines::{call_of, number, option, words_of};
use crate::messages::{Alarm, Call, Callback, Content, Reply, item, receipt, reply_message, request};
use crate::service::{Service, WINDOW};
use std::collections::{BTreeMap, HashMap, VecDeque};
use std::fmt::Arguments;
use std::fs;
use std::io::{self, Write};
use std::path::Path;
use std::rc::Rc;

/// A server: the services, and the deeds of the last entry that it applied since it was handed them on.
struct Server {
    service: Service,
    last: Option<Vec<Deed>>,
    // whether it has not heard yet what it was handed on
    joining: bool,
}

const NAMES: [&str; 3] = ["a", "b", "c"];

#[derive(Default)]
struct Agent {
    next: u32,
    kept: VecDeque<(u32, Rc<Call>)>,
    living: Vec<(u32, u32, u32)>,
    queue: VecDeque<Callback>,
    handed: u64,
}

/// The printed lines of an event, where they are wanted.
struct Lines {
    text: Vec<u8>,
    wanted: bool,
}

impl Lines {
    fn tell(&mut self, line: Arguments) {
        if self.wanted {
            self.text.write_fmt(line).expect("memory");
            self.text.push(b'\n');
        }
    }
}

pub struct World {
    now: i64,
    callbacks: usize,
    disk: Disk,
    servers: Vec<Option<Server>>,
    active: usize,
    agents: BTreeMap<u16, Agent>,
    net: Vec<Rc<[u8]>>,
    places: HashMap<Rc<[u8]>, usize>,
    history: Vec<(u16, u32, Option<Rc<Call>>, i64)>,
    replies: usize,
    lines: Lines,
}

impl World {
    /// The world of a cluster line, with so many servers. What events print is kept where it is wanted.
    pub fn begin(opening: &str, count: usize, wanted: bool) -> io::Result<World> {
        let words = words_of(opening);
        let ["cluster", start, queue, callbacks] = words[..] else { panic!("no cluster line") };
        let now: i64 = number(option(start, "start").expect("a start"));
        let (service, deeds) = Service::begin((now / 1_000_000_000) as u64, number(option(queue, "queue").expect("a queue")));
        let mut disk = Disk::default();
        disk.perform(&deeds)?;
        let others = (1..count).map(|_| service.handed_on()).collect::<Vec<Service>>();
        let servers = std::iter::once(service).chain(others);
        Ok(World {
            now,
            callbacks: number(option(callbacks, "callbacks").expect("callbacks")),
            disk,
            servers: servers.map(|service| Some(Server { service, last: None, joining: false })).collect(),
            active: 0,
            agents: BTreeMap::new(),
            net: Vec::new(),
            places: HashMap::new(),
            history: Vec::new(),
            replies: 0,
            lines: Lines { text: Vec::new(), wanted },
        })
    }

    /// What the events since the last call printed.
    pub fn take_lines(&mut self) -> Vec<u8> {
        std::mem::take(&mut self.lines.text)
    }

    /// The line that tells what a run came to.
    pub fn summary(&self) -> io::Result<String> {
        let (files, bytes) = Disk::lengths()?;
        Ok(format!(
            "load entries={} replies={} net={} files={files} bytes={bytes} a={} b={}",
            self.history.len(),
            self.replies,
            self.net.len(),
            self.role(0),
            self.role(1)
        ))
    }

    fn role(&self, place: usize) -> &'static str {
        match &self.servers[place] {
            None => "down",
            Some(_) if place == self.active => "active",
            Some(server) if server.joining => "joining",
            Some(_) => "standby",
        }
    }

    fn tell_role(&mut self, place: usize) {
        let role = self.role(place);
        self.lines.tell(format_args!("server {} {role}", NAMES[place]));
    }

    fn service(&self) -> &Service {
        &self.servers[self.active].as_ref().expect("an active server").service
    }

    // The others of a server.
    fn beside(&self, place: usize) -> impl Iterator<Item = usize> {
        (0..self.servers.len()).filter(move |other| *other != place)
    }

    // Where it was the active server that went down, the first that applied nothing since it was handed the services on takes over, else
    // the first, with the deeds of what it applied last; and it hands its services on to the others.
    fn crash(&mut self, place: usize) -> io::Result<()> {
        self.servers[place] = None;
        self.tell_role(place);
        if place != self.active {
            return Ok(());
        }
        let standbys: Vec<usize> = (0..self.servers.len()).filter(|other| self.role(*other) == "standby").collect();
        let is_fresh = |other: &usize| self.servers[*other].as_ref().is_some_and(|server| server.last.is_none());
        let next = standbys.iter().copied().find(is_fresh).unwrap_or_else(|| standbys[0]);
        if let Some(deeds) = &self.servers[next].as_ref().expect("a standby").last {
            self.disk.perform(deeds)?;
        }
        self.active = next;
        self.tell_role(next);
        for other in self.beside(next) {
            if let Some(server) = self.servers[other].take() {
                let service = self.service().handed_on();
                self.servers[other] = Some(Server { service, last: None, joining: false });
                if server.joining {
                    self.tell_role(other);
                }
            }
        }
        Ok(())
    }

    fn restart(&mut self, place: usize) {
        let service = self.service().handed_on();
        self.servers[place] = Some(Server { service, last: None, joining: true });
        self.tell_role(place);
    }

    // One that joins hears what it was handed on. Tells whether there was one.
    fn join(&mut self) -> bool {
        let joins = |server: &Option<Server>| server.as_ref().is_some_and(|server| server.joining);
        let Some(place) = self.servers.iter().position(joins) else { return false };
        self.servers[place].as_mut().expect("a server").joining = false;
        self.tell_role(place);
        true
    }

    // An entry is accepted and goes to all servers; the active one does its deeds.
    fn commit(&mut self, client: u16, seq: u32, call: &Rc<Call>) -> io::Result<Reply> {
        assert!(self.servers.iter().flatten().all(|server| !server.joining), "an entry beside a join");
        self.history.push((client, seq, Some(call.clone()), self.now));
        self.lines.tell(format_args!("acc {} call {client} {seq} {}", self.history.len(), self.now));
        for other in self.beside(self.active) {
            if let Some(server) = &mut self.servers[other] {
                server.last = Some(server.service.apply(client, seq, call, self.now).1);
            }
        }
        let server = self.servers[self.active].as_mut().expect("an active server");
        let (reply, deeds) = server.service.apply(client, seq, call, self.now);
        self.disk.perform(&deeds)?;
        Ok(reply)
    }

    // A receipt that is new becomes an entry. Tells whether it was.
    fn take_receipt(&mut self, client: u16, key: u32, number: u32) -> bool {
        let server = self.servers[self.active].as_mut().expect("an active server");
        if !server.service.received(client, key, number) {
            return false;
        }
        for other in self.beside(self.active) {
            if let Some(server) = &mut self.servers[other] {
                server.service.received(client, key, number);
                server.last = Some(Vec::new());
            }
        }
        self.history.push((client, key, None, self.now));
        self.lines.tell(format_args!("acc {} rcpt {client} {key} {number} {}", self.history.len(), self.now));
        true
    }

    fn post(&mut self, bytes: Vec<u8>, told: Arguments) {
        let bytes: Rc<[u8]> = bytes.into();
        if self.places.contains_key(&bytes) {
            return;
        }
        self.net.push(bytes.clone());
        self.places.insert(bytes, self.net.len());
        self.lines.tell(format_args!("post {} {told}", self.net.len()));
    }

    fn ask(&mut self, client: u16, call: Call) {
        let agent = self.agents.entry(client).or_insert_with(|| Agent { next: 1, ..Agent::default() });
        let seq = agent.next;
        assert!(agent.kept.len() < WINDOW, "too many calls without reply");
        agent.next += 1;
        if let Call::Subscribe { id } = &call {
            agent.living.push((seq, *id, 1));
        }
        let call = Rc::new(call);
        agent.kept.push_back((seq, call.clone()));
        self.post(request(client, seq, &call), format_args!("req {client} {seq}"));
    }

    // A call is heard, and its reply taken. Tells whether something went on.
    fn turn(&mut self, client: u16, seq: u32, call: &Rc<Call>) -> io::Result<bool> {
        let before = self.service().reply_to(client, seq);
        let loud = before.is_none();
        let reply = match before {
            Some(reply) => reply,
            None => self.commit(client, seq, call)?,
        };
        self.post(reply_message(client, seq, reply), format_args!("rep {client} {seq}"));
        let agent = self.agents.get_mut(&client).expect("a client that asked");
        if let Call::Write(record) = &**call {
            if record.flags == 1 {
                if agent.queue.len() >= self.callbacks {
                    return Ok(loud);
                }
                agent.queue.push_back(Callback::Written { invocation: record.invocation });
            }
        }
        agent.kept.retain(|kept| kept.0 != seq);
        self.replies += 1;
        match reply {
            Reply::Done | Reply::Marked { .. } => self.lines.tell(format_args!("reply {client} {seq} ok")),
            Reply::Sent { id } => self.lines.tell(format_args!("reply {client} {seq} ok id={id}")),
        }
        Ok(true)
    }

    fn take_items(&mut self) -> bool {
        let items = self.service().items();
        for (client, key, number, content) in &items {
            self.post(item(*client, *key, *number, content), format_args!("item {client} {key} {number}"));
        }
        let mut loud = false;
        for (client, key, number, content) in items {
            let agent = self.agents.get_mut(&client).expect("a client that subscribed");
            let full = agent.queue.len() >= self.callbacks;
            let Some(living) = agent.living.iter_mut().find(|living| living.0 == key) else { continue };
            if living.2 != number || full {
                continue;
            }
            living.2 += 1;
            agent.queue.push_back(Callback::Item { id: living.1, content });
            self.post(receipt(client, key, number), format_args!("rcpt {client} {key} {number}"));
            loud = true;
        }
        loud
    }

    fn round(&mut self) -> io::Result<bool> {
        let mut loud = false;
        let clients: Vec<u16> = self.agents.keys().copied().collect();
        for client in clients {
            let kept: Vec<(u32, Rc<Call>)> = self.agents[&client].kept.iter().cloned().collect();
            for (seq, call) in kept {
                loud |= self.turn(client, seq, &call)?;
            }
            let taken: Vec<(u32, u32)> = self.agents[&client].living.iter().map(|one| (one.0, one.2 - 1)).collect();
            for (key, number) in taken {
                loud |= self.take_receipt(client, key, number);
            }
        }
        Ok(self.take_items() || loud)
    }

    fn dispatch(&mut self, client: u16, most: usize) {
        let agent = self.agents.get_mut(&client).expect("a client that asked");
        let count = agent.queue.len().min(most);
        for callback in agent.queue.drain(..count) {
            agent.handed += 1;
            let place = agent.handed;
            match callback {
                Callback::Written { invocation } => {
                    self.lines.tell(format_args!("callback {client} {place} write {invocation} ok"));
                }
                Callback::Item { id, content: Content::Sent(alarm) } => {
                    self.lines.tell(format_args!("callback {client} {place} ntf {id} {}", described(&alarm)));
                }
                Callback::Item { id, content: Content::Lost(ids) } => {
                    let words: Vec<String> = ids.iter().map(u64::to_string).collect();
                    let (count, ids) = (ids.len(), words.join(","));
                    self.lines.tell(format_args!("callback {client} {place} lost {id} alarm count={count} ids={ids}"));
                }
            }
        }
        self.lines.tell(format_args!("reply {client} - ok dispatched={count}"));
    }

    fn show_files(&mut self) -> io::Result<()> {
        let mut files = BTreeMap::new();
        for entry in fs::read_dir(ROOT)? {
            let entry = entry?;
            files.insert(entry.file_name().into_string().expect("a name"), entry.metadata()?.len());
        }
        for (name, length) in files {
            self.lines.tell(format_args!("file {name} {length}"));
        }
        Ok(())
    }

    fn show_file(&mut self, name: &str) -> io::Result<()> {
        let text = fs::read_to_string(Path::new(ROOT).join(name))?;
        for line in text.lines() {
            self.lines.tell(format_args!("text {}", line.trim_end_matches(' ')));
        }
        Ok(())
    }

    fn settle(&mut self) -> io::Result<()> {
        while self.join() {}
        while self.round()? {}
        Ok(())
    }

    /// Does a line of a script.
    pub fn play(&mut self, line: &str) -> io::Result<()> {
        let words = words_of(line);
        match words[..] {
            ["settle"] => self.settle()?,
            ["crash", place] => self.crash(place_of(place))?,
            ["restart", place] => self.restart(place_of(place)),
            ["mirror"] => {
                self.join();
            }
            ["ack"] => {}
            ["servers"] => (0..self.servers.len()).for_each(|place| self.tell_role(place)),
            ["dispatch", client, "all", workers] if workers.starts_with("workers=") => self.dispatch(number(client), usize::MAX),
            ["dispatch", client, "one"] => self.dispatch(number(client), 1),
            ["time", now] => self.now = number(now),
            ["files"] => self.show_files()?,
            ["cat", name] => self.show_file(name.trim_matches('"'))?,
            ["log" | "ntf", client, ..] => {
                let call = call_of(&words).unwrap_or_else(|| panic!("no line of these scripts: {words:?}"));
                self.ask(number(client), call);
            }
            _ => panic!("no line of these scripts: {words:?}"),
        }
        Ok(())
    }
}

fn place_of(server: &str) -> usize {
    NAMES.iter().position(|name| *name == server).unwrap_or_else(|| panic!("no server: {server}"))
}

// An alarm as the words of its line.
fn described(alarm: &Alarm) -> String {
    let (vendor, major, minor) = alarm.class;
    format!(
        "alarm id={} type=0x{:04x} obj=\"{}\" by=\"{}\" class={vendor}.{major}.{minor} time={} text=\"{}\" cause={} sev={}",
        alarm.id, alarm.kind, alarm.object, alarm.notifier, alarm.time, alarm.text, alarm.cause, alarm.severity
    )
}
