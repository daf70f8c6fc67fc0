//! What was compared, what differs, and what differs as it is listed to.
use std::collections::BTreeMap;

#[derive(Default)]
pub struct Tally {
    same: BTreeMap<&'static str, u64>,
    /// how often each code was answered, of calls of the library
    codes: BTreeMap<&'static str, BTreeMap<u8, u64>>,
    listed: BTreeMap<String, Listed>,
    /// blocks that were checked, and of these the accepted ones, on which nothing may differ from the Rust
    checked: u64,
    accepted: u64,
    /// the most restart keys that a seek's search read, for each count of restarts; in the earlier format each row is one
    reads: BTreeMap<u64, u64>,
    pub rows_are_restarts: bool,
    differ: u64,
    /// the smallest input of each kind that differs
    smallest: BTreeMap<&'static str, (usize, String)>,
}

struct Listed {
    times: u64,
    size: usize,
    input: String,
}

impl Tally {
    pub fn same(&mut self, kind: &'static str) {
        *self.same.entry(kind).or_default() += 1;
    }

    pub fn answered(&mut self, kind: &'static str, code: u8) {
        self.same(kind);
        *self.codes.entry(kind).or_default().entry(code).or_default() += 1;
    }

    pub fn checked(&mut self, accepted: bool) {
        self.checked += 1;
        self.accepted += accepted as u64;
    }

    pub fn sought(&mut self, restarts: u64, reads: u64) {
        let most = self.reads.entry(restarts).or_default();
        *most = reads.max(*most);
    }

    pub fn differs(&mut self, kind: &'static str, size: usize, what: impl FnOnce() -> String) {
        self.differ += 1;
        if self.smallest.get(kind).is_none_or(|known| size < known.0) {
            self.smallest.insert(kind, (size, what()));
        }
    }

    /// A difference from the Rust that the table has.
    pub fn listed(&mut self, name: &str, size: usize, input: impl FnOnce() -> String) {
        let listed = self.listed.entry(name.into()).or_insert(Listed { times: 0, size: usize::MAX, input: String::new() });
        listed.times += 1;
        if size < listed.size {
            listed.size = size;
            listed.input = input();
        }
    }

    /// As ": code x times, ..".
    fn codes_of(&self, kind: &str) -> String {
        let Some(codes) = self.codes.get(kind) else { return String::new() };
        let codes: Vec<String> = codes.iter().map(|(code, times)| format!("{code} x {times}")).collect();
        format!(": {}", codes.join(", "))
    }

    /// As "restarts: most reads, ..", one restart count with each: and the counts whose search read more keys than the count has
    /// significant bits, of which there may be none.
    fn reads_of(&self) -> (String, Vec<u64>) {
        let bits = |count: u64| (u64::BITS - count.leading_zeros()) as u64;
        let all: Vec<String> = self.reads.iter().map(|(restarts, most)| format!("{restarts}: {most}")).collect();
        (all.join(", "), self.reads.iter().filter(|(restarts, most)| **most > bits(**restarts)).map(|(restarts, _)| *restarts).collect())
    }

    /// Prints all, and says whether nothing differs, no search read more keys than it may, and over a third of the blocks were
    /// accepted: a comparison of blocks that the check refuses tells little.
    pub fn report(&self) -> bool {
        for (kind, times) in &self.same {
            println!("{times:>10} same    {kind}{}", self.codes_of(kind));
        }
        for (name, listed) in &self.listed {
            println!("{:>10} listed  {name}", listed.times);
            println!("{:>19} smallest: {}", "", cut(&listed.input));
        }
        for (kind, (_, what)) in &self.smallest {
            println!("DIFFERS  {kind}: {what}");
        }
        let (reads, beyond) = self.reads_of();
        let (keys, of) = if self.rows_are_restarts { ("keys", "rows") } else { ("restart keys", "restarts") };
        println!("the most {keys} that a search read, by the count of {of}: {reads}");
        if !beyond.is_empty() {
            println!("MORE READS than significant bits, of these counts: {beyond:?}");
        }
        let listed: u64 = self.listed.values().map(|listed| listed.times).sum();
        let compared = self.same.values().sum::<u64>() + listed + self.differ;
        let enough = 3 * self.accepted > self.checked;
        println!("{} of {} blocks accepted{}", self.accepted, self.checked, if enough { "" } else { ": TOO FEW" });
        println!("{compared} compared, {} differ, {listed} listed differences", self.differ);
        self.differ == 0 && enough && beyond.is_empty()
    }
}

fn cut(text: &str) -> String {
    const MOST: usize = 300;
    if text.len() <= MOST { text.into() } else { format!("{}.. ({} characters)", &text[..MOST], text.len()) }
}
