//! The chunks of a data source, and what is visible of them.
use std::collections::{BTreeMap, BinaryHeap};
use std::mem::take;
use std::rc::Rc;

#[derive(Clone, PartialEq, Eq, PartialOrd, Ord)]
pub struct Chunk {
    pub start: i64,
    pub end: i64,
    pub version: Rc<str>,
}

impl Chunk {
    /// A higher version is shown before a lower one, then a later start, then a later end.
    fn rank(&self) -> (&str, i64, i64) {
        (&self.version, self.start, self.end)
    }
}

#[derive(Clone, Default)]
pub struct Members {
    /// Partitions and the nodes that hold them, in order.
    held: Vec<(u16, u16)>,
    core: u16,
}

impl Members {
    /// The partitions, in order.
    pub fn partitions(&self) -> impl Iterator<Item = u16> + '_ {
        let mut last = None;
        self.held.iter().map(|it| it.0).filter(move |it| last.replace(*it) != Some(*it))
    }

    fn is_complete(&self) -> bool {
        self.partitions().take(usize::from(self.core)).eq(0..self.core)
    }
}

/// From one instant to another this chunk is visible.
#[derive(Clone)]
struct Run {
    start: i64,
    end: i64,
    chunk: Chunk,
}

/// Appends a run, or makes the last one longer by it.
fn push_run(runs: &mut Vec<Run>, start: i64, end: i64, chunk: &Chunk) {
    match runs.last_mut() {
        Some(last) if last.end == start && last.chunk == *chunk => last.end = end,
        _ => runs.push(Run { start, end, chunk: chunk.clone() }),
    }
}

#[derive(Clone, Default)]
pub struct Timeline {
    chunks: BTreeMap<Chunk, Members>,
    /// The length of the longest chunk that was ever there.
    longest: i64,
    /// What was visible, in order, when `stale` was empty.
    runs: Vec<Run>,
    /// The intervals of the chunks that were changed since.
    stale: Vec<(i64, i64)>,
}

impl Timeline {
    pub fn add(&mut self, chunk: &Chunk, partition: u16, core: u16, node: u16) {
        let members = self.chunks.entry(chunk.clone()).or_default();
        members.core = core;
        if let Err(place) = members.held.binary_search(&(partition, node)) {
            members.held.insert(place, (partition, node));
        }
        self.longest = self.longest.max(chunk.end - chunk.start);
        self.stale.push((chunk.start, chunk.end));
    }

    pub fn remove(&mut self, chunk: &Chunk, partition: u16, node: u16) {
        let members = self.chunks.get_mut(chunk).unwrap();
        members.held.retain(|it| *it != (partition, node));
        if members.held.is_empty() {
            self.chunks.remove(chunk);
        }
        self.stale.push((chunk.start, chunk.end));
    }

    pub fn is_stale(&self) -> bool {
        !self.stale.is_empty()
    }

    /// Sweeps over what was changed.
    pub fn refresh(&mut self) {
        let mut stale = take(&mut self.stale);
        stale.sort_unstable();
        stale.dedup_by(|later, earlier| {
            let touches = later.0 <= earlier.1;
            if touches {
                earlier.1 = earlier.1.max(later.1);
            }
            touches
        });
        for (start, end) in stale {
            let (first, last) = (self.runs.partition_point(|it| it.end < start), self.runs.partition_point(|it| it.start <= end));
            let mut shown = Vec::new();
            for run in self.runs[first..last].iter().filter(|it| it.start < start) {
                push_run(&mut shown, run.start, run.end.min(start), &run.chunk);
            }
            self.sweep(start, end, &mut shown);
            for run in self.runs[first..last].iter().filter(|it| end < it.end) {
                push_run(&mut shown, run.start.max(end), run.end, &run.chunk);
            }
            self.runs.splice(first..last, shown);
        }
    }

    /// Appends what is visible from one instant to another, by one sweep over the complete chunks there.
    fn sweep(&self, start: i64, end: i64, shown: &mut Vec<Run>) {
        let first = Chunk { start: start - self.longest, end: i64::MIN, version: "".into() };
        let there = self.chunks.range(first..).take_while(|it| it.0.start < end);
        let chunks: Vec<&Chunk> = there.filter(|(it, members)| start < it.end && members.is_complete()).map(|it| it.0).collect();
        let mut bounds: Vec<i64> = chunks.iter().flat_map(|it| [it.start.max(start), it.end.min(end)]).collect();
        bounds.sort_unstable();
        bounds.dedup();
        let (mut active, mut next) = (BinaryHeap::new(), 0);
        for pair in bounds.windows(2) {
            while next < chunks.len() && chunks[next].start <= pair[0] {
                active.push((chunks[next].rank(), next));
                next += 1;
            }
            while active.peek().is_some_and(|it| chunks[it.1].end <= pair[0]) {
                active.pop();
            }
            if let Some((_, best)) = active.peek() {
                push_run(shown, pair[0], pair[1], chunks[*best]);
            }
        }
    }

    /// What is visible from one instant to another, where nothing is stale.
    pub fn lookup(&self, start: i64, end: i64) -> impl Iterator<Item = (i64, i64, &Chunk, &Members)> + '_ {
        let first = self.runs.partition_point(|it| it.end <= start);
        let runs = self.runs[first..].iter().take_while(move |it| it.start < end);
        runs.map(move |it| (it.start.max(start), it.end.min(end), &it.chunk, &self.chunks[&it.chunk]))
    }
}
