//! What `druid_cluster replay` does, without a proof and as lean as a plain program is: `bench/plain.py` measures ours beside it.
//!
//! It takes the lines that the benchmarks make, and refuses nothing that these do not need refused.
mod time;
mod timeline;

use serde_json::Value;
use std::collections::{BTreeMap, HashSet};
use std::io::{self, BufRead, BufWriter, Write};
use std::mem::replace;
use std::rc::Rc;
use time::{interval_text, parse_interval};
use timeline::{Chunk, Timeline};

/// An incarnation and a count.
type Mark = (u64, u64);

#[derive(Clone, PartialEq, Eq, PartialOrd, Ord)]
struct Id {
    chunk: Chunk,
    partition: u16,
    source: Rc<str>,
}

/// The core counts of segments.
type Cores = BTreeMap<Id, u16>;

#[derive(Clone, Default, PartialEq)]
struct Node {
    mark: Mark,
    cores: Rc<Cores>,
}

/// Copies share what they have, until one is changed.
#[derive(Clone, Default)]
struct Broker {
    nodes: Vec<Node>,
    timelines: BTreeMap<Rc<str>, Rc<Timeline>>,
}

impl Broker {
    fn timeline(&mut self, source: &Rc<str>) -> &mut Timeline {
        Rc::make_mut(self.timelines.entry(source.clone()).or_default())
    }

    fn load(&mut self, node: u16, id: Id, core: u16) {
        self.timeline(&id.source).add(&id.chunk, id.partition, core, node);
        Rc::make_mut(&mut self.nodes[usize::from(node)].cores).insert(id, core);
    }

    fn drop(&mut self, node: u16, id: &Id) {
        self.timeline(&id.source).remove(&id.chunk, id.partition, node);
        Rc::make_mut(&mut self.nodes[usize::from(node)].cores).remove(id);
    }

    /// Makes the node's set the one given.
    fn replace(&mut self, node: u16, mark: Mark, cores: Rc<Cores>) {
        let new = Node { mark, cores: cores.clone() };
        let held = replace(&mut self.nodes[usize::from(node)], new).cores;
        for id in held.keys().filter(|it| !cores.contains_key(it)) {
            self.timeline(&id.source).remove(&id.chunk, id.partition, node);
        }
        for (id, core) in cores.iter().filter(|it| !held.contains_key(it.0)) {
            self.timeline(&id.source).add(&id.chunk, id.partition, *core, node);
        }
    }

    fn join(&mut self, other: &Broker) {
        let nodes = self.nodes.len();
        if (0..nodes).all(|node| self.nodes[node].mark <= other.nodes[node].mark) {
            *self = other.clone();
            return;
        }
        for node in 0..nodes {
            let from = &other.nodes[node];
            if self.nodes[node].mark < from.mark {
                self.replace(node as u16, from.mark, from.cores.clone());
            }
        }
    }

    fn write_pieces(&mut self, output: &mut impl Write, source: &str, start: i64, end: i64) -> io::Result<()> {
        output.write_all(b"{\"pieces\":[")?;
        if let Some(timeline) = self.timelines.get_mut(source) {
            if timeline.is_stale() {
                Rc::make_mut(timeline).refresh();
            }
            for (place, (from, to, chunk, members)) in timeline.lookup(start, end).enumerate() {
                output.write_all(comma(place))?;
                output.write_all(b"{\"chunk\":\"")?;
                output.write_all(&interval_text(chunk.start, chunk.end))?;
                output.write_all(b"\",\"interval\":\"")?;
                output.write_all(&interval_text(from, to))?;
                output.write_all(b"\",\"parts\":[")?;
                for (place, part) in members.partitions().enumerate() {
                    output.write_all(comma(place))?;
                    write!(output, "{part}")?;
                }
                output.write_all(b"],\"version\":")?;
                serde_json::to_writer(&mut *output, &*chunk.version)?;
                output.write_all(b"}")?;
            }
        }
        output.write_all(b"]}")
    }
}

/// What stands before the item at a place of a list.
fn comma(place: usize) -> &'static [u8] {
    if place == 0 {
        b""
    } else {
        b","
    }
}

fn mark_of(value: &Value) -> Mark {
    (value["hash"].as_u64().unwrap(), value["counter"].as_u64().unwrap())
}

fn write_mark(output: &mut impl Write, mark: Mark) -> io::Result<()> {
    write!(output, "{{\"counter\":{},\"hash\":{}}}", mark.1, mark.0)
}

fn write_outcome(output: &mut impl Write, mark: Mark, outcome: &str) -> io::Result<()> {
    output.write_all(b"{\"mark\":")?;
    write_mark(output, mark)?;
    write!(output, ",\"outcome\":\"{outcome}\"}}")
}

/// The texts that were read, each of which is kept once.
#[derive(Default)]
struct Texts {
    known: HashSet<Rc<str>>,
}

impl Texts {
    fn text(&mut self, value: &Value) -> Rc<str> {
        let text = value.as_str().unwrap();
        if let Some(known) = self.known.get(text) {
            return known.clone();
        }
        let new: Rc<str> = text.into();
        self.known.insert(new.clone());
        new
    }

    /// The segment of a change, with its core count.
    fn segment(&mut self, value: &Value) -> (Id, u16) {
        let (start, end) = parse_interval(value["interval"].as_str().unwrap());
        let (version, source) = (self.text(&value["version"]), self.text(&value["dataSource"]));
        let number = |key: &str| value["shardSpec"][key].as_u64().unwrap() as u16;
        (Id { chunk: Chunk { start, end, version }, partition: number("partitionNum"), source }, number("partitions"))
    }
}

#[derive(Default)]
struct Script {
    texts: Texts,
    brokers: Vec<Broker>,
}

impl Script {
    fn answer_reply(&mut self, output: &mut impl Write, broker: usize, node: usize, reply: &Value) -> io::Result<()> {
        let (broker, texts) = (&mut self.brokers[broker], &mut self.texts);
        let (mark, held) = (mark_of(&reply["counter"]), broker.nodes[node].mark);
        let changes = reply["requests"].as_array().unwrap();
        if reply["from"].is_null() {
            if mark <= held {
                return write_outcome(output, held, "AlreadyHave");
            }
            let cores = changes.iter().map(|it| texts.segment(it)).collect();
            broker.replace(node as u16, mark, Rc::new(cores));
            return write_outcome(output, mark, "Moved");
        }
        let from = mark_of(&reply["from"]);
        if mark.0 != held.0 {
            return output.write_all(b"{\"refused\":\"A3\"}");
        }
        if from.1 > held.1 {
            return output.write_all(b"{\"refused\":\"A2\"}");
        }
        if mark.1 <= held.1 {
            return write_outcome(output, held, "AlreadyHave");
        }
        for change in &changes[(held.1 - from.1) as usize..] {
            let (id, core) = texts.segment(change);
            if change["action"] == "load" {
                broker.load(node as u16, id, core);
            } else {
                broker.drop(node as u16, &id);
            }
        }
        broker.nodes[node].mark = mark;
        write_outcome(output, mark, "Moved")
    }

    fn answer_marks(&self, output: &mut impl Write, broker: usize) -> io::Result<()> {
        output.write_all(b"{\"marks\":[")?;
        for (place, node) in self.brokers[broker].nodes.iter().enumerate() {
            output.write_all(comma(place))?;
            write_mark(output, node.mark)?;
        }
        output.write_all(b"]}")
    }

    fn answer(&mut self, output: &mut impl Write, line: &Value) -> io::Result<()> {
        let place = |key: &str| line[key].as_u64().unwrap() as usize;
        match line["do"].as_str().unwrap() {
            "brokers" => {
                let nodes = line["nodes"].as_array().unwrap().len();
                let broker = Broker { nodes: vec![Node::default(); nodes], timelines: BTreeMap::new() };
                self.brokers = vec![broker; place("count")];
                write!(output, "{{\"brokers\":{}}}", place("count"))
            }
            "reply" => self.answer_reply(output, place("broker"), place("node"), &line["reply"]),
            "lookup" => {
                let (start, end) = parse_interval(line["interval"].as_str().unwrap());
                self.brokers[place("broker")].write_pieces(output, line["source"].as_str().unwrap(), start, end)
            }
            "marks" => self.answer_marks(output, place("broker")),
            "join" => {
                let from = self.brokers[place("from")].clone();
                self.brokers[place("into")].join(&from);
                write!(output, "{{\"joined\":{}}}", place("into"))
            }
            _ => write!(output, "{{\"equal\":{}}}", self.brokers[place("left")].nodes == self.brokers[place("right")].nodes),
        }
    }
}

fn main() -> io::Result<()> {
    let (mut input, mut output) = (io::stdin().lock(), BufWriter::new(io::stdout().lock()));
    let (mut script, mut line) = (Script::default(), Vec::new());
    while input.read_until(b'\n', &mut line)? > 0 {
        script.answer(&mut output, &serde_json::from_slice(&line)?)?;
        output.write_all(b"\n")?;
        line.clear();
    }
    output.flush()
}
