// A node in memory: it executes requests as docs/WIRE.md says.

use std::collections::BTreeMap;

/// A lock of the table: its last fence, and who holds it.
#[derive(Clone, Debug, Default)]
pub struct Row {
    pub fence: u64,
    pub holders: Vec<u16>,
    pub is_shared: bool,
}

/// The table, and of each client the last number that was executed, with its answer.
#[derive(Debug, Default)]
pub struct Model {
    pub table: BTreeMap<String, Row>,
    pub last: BTreeMap<u16, (u64, Vec<u8>)>,
}

fn number(bytes: &[u8]) -> u64 {
    bytes
        .iter()
        .fold(0, |sum, byte| sum << 8 | u64::from(*byte))
}

fn answer(tag: u8, fields: &[&[u8]]) -> Vec<u8> {
    [&[tag], fields.concat().as_slice()].concat()
}

impl Row {
    fn busy(&self) -> Vec<u8> {
        let holder = self.holders.iter().min().unwrap().to_be_bytes();
        answer(2, &[&holder, &self.fence.to_be_bytes()])
    }

    fn grant(&mut self, client: u16, is_shared: bool) {
        self.fence += 1;
        self.holders = vec![client];
        self.is_shared = is_shared;
    }

    fn acquire(&mut self, client: u16) -> Vec<u8> {
        if !self.holders.is_empty() {
            return self.busy();
        }
        self.grant(client, false);
        answer(1, &[&self.fence.to_be_bytes()])
    }

    fn share(&mut self, client: u16) -> Vec<u8> {
        match (self.holders.is_empty(), self.is_shared) {
            (true, _) => self.grant(client, true),
            (false, false) => return self.busy(),
            (false, true) if self.holders.contains(&client) => {}
            (false, true) => self.holders.push(client),
        }
        answer(12, &[&self.fence.to_be_bytes()])
    }

    fn release(&mut self, client: u16, fence: u64) -> Vec<u8> {
        if self.fence != fence || !self.holders.contains(&client) {
            return answer(4, &[]);
        }
        self.holders.retain(|holder| *holder != client);
        answer(3, &[])
    }

    fn state(&self) -> Vec<u8> {
        let fence = self.fence.to_be_bytes();
        match self.holders.as_slice() {
            [] => answer(5, &[&fence]),
            holders if self.is_shared => answer(13, &[&[holders.len() as u8], &fence]),
            [holder, ..] => answer(6, &[&holder.to_be_bytes(), &fence]),
        }
    }

    fn check(&self, fence: u64) -> Vec<u8> {
        let is_valid = self.fence == fence && !self.holders.is_empty();
        answer(if is_valid { 7 } else { 8 }, &[])
    }

    /// Frees it of all who hold it.
    pub fn clear(&mut self) {
        self.holders.clear();
    }
}

impl Model {
    /// The lock of that name.
    pub fn row(&mut self, name: &str) -> &mut Row {
        self.table.entry(name.to_owned()).or_default()
    }

    /// Whether the client holds that name at that fence.
    pub fn is_held(&self, client: u16, name: &str, fence: u64) -> bool {
        let row = self.table.get(name);
        row.is_some_and(|row| row.fence == fence && row.holders.contains(&client))
    }

    /// The reply to a request.
    pub fn reply(&mut self, request: &[u8]) -> Vec<u8> {
        let client = number(&request[16..18]) as u16;
        let asked = number(&request[18..26]);
        let (last, _) = self.last.get(&client).cloned().unwrap_or_default();
        let mut out = request[..26].to_vec();
        out[15] = 1; // node 1 replies
        if asked < last {
            out[3] = 12;
            out.extend(last.to_be_bytes());
            return out;
        }
        if asked > last {
            let answer = self.executed(client, &request[28..]);
            self.last.insert(client, (asked, answer));
        }
        out[3] = 10;
        out.extend(&self.last[&client].1);
        out
    }

    /// The answer to a body of the table.
    pub fn executed(&mut self, client: u16, body: &[u8]) -> Vec<u8> {
        let length = usize::from(body[1]);
        let name = str::from_utf8(&body[2..2 + length]).unwrap();
        let fence = number(&body[2 + length..]);
        if matches!(body[0], 3) {
            return self
                .table
                .get(name)
                .map_or_else(|| Row::default().state(), Row::state);
        }
        let row = self.row(name);
        match body[0] {
            1 => row.acquire(client),
            2 => row.release(client, fence),
            4 => row.check(fence),
            5 => row.share(client),
            other => panic!("body {other}"),
        }
    }
}
