//! The questions of `bin/awdl-ask` and the wording of its answers, as docs/ASK.md tells them.
use std::fmt::Write;

#[derive(Clone, Copy, PartialEq)]
pub enum Kind {
    /// A number, and the largest that its field can hold.
    Number(u32),
    /// `single` or `map`.
    OneOrMap,
    /// A number whose largest depends on the channel's kind, which stands in front of it.
    Channel,
    /// Six bytes, a number each.
    Address,
    /// Thirty-two bytes, a number each.
    Bytes,
}
use Kind::*;

impl Kind {
    pub fn numbers(self) -> usize {
        match self {
            Address => 6,
            Bytes => 32,
            _ => 1,
        }
    }
}

const FLAG: Kind = Number(1);
const U8: Kind = Number(0xFF);
const U16: Kind = Number(0xFFFF);
const U32: Kind = Number(0xFFFF_FFFF);

pub type Fields = &'static [(&'static str, Kind)];

pub const FRAME: Fields = &[("subtype", U8), ("reserved", U8), ("phy_tx_time", U32), ("target_tx_time", U32)];
pub const CHANNEL: Fields = &[("encoding", U8), ("first", U8), ("second", U8)];
pub const SEQUENCE: Fields = &[("encoding", U8), ("bytes", Bytes)];
pub const CHANNEL_SEQUENCE: Fields = &[("duplicate_count", U8), ("step_count", U8), ("fill_channel", U16), ("encoding", U8), ("bytes", Bytes)];
#[rustfmt::skip]
pub const SYNCHRONIZATION: Fields = &[
    ("next_channel", U8), ("tx_counter", U16), ("master_channel", U8), ("guard_time", U8), ("aw_period", U16), ("af_period", U16),
    ("awdl_flags", U16), ("aw_ext_length", U16), ("aw_common_length", U16), ("remaining_aw_length", U16), ("min_ext_count", U8),
    ("max_multicast_ext_count", U8), ("max_unicast_ext_count", U8), ("max_af_ext_count", U8), ("master_address", Address),
    ("presence_mode", U8), ("reserved", U8), ("aw_seq_number", U16), ("ap_beacon_alignment_delta", U16), ("duplicate_count", U8),
    ("step_count", U8), ("fill_channel", U16), ("encoding", U8), ("bytes", Bytes),
];
#[rustfmt::skip]
pub const DATA_PATH: Fields = &[
    ("flags", U16), ("country_code", FLAG), ("country_first", U8), ("country_second", U8), ("country_pad", U8), ("channel_map", FLAG),
    ("channel_kind", OneOrMap), ("channel", Channel), ("infra_bssid_channel", FLAG), ("infra_bssid", Address), ("infra_channel", U16),
    ("infra_address", FLAG), ("infra", Address), ("awdl_address", FLAG), ("awdl", Address), ("unicast_options", FLAG), ("options", U32),
    ("unicast_options_ext", FLAG), ("ext", U32), ("extended_flags", FLAG), ("extended", U16), ("rlfc", FLAG), ("rlfc_word", U32),
    ("log_trigger_id", FLAG), ("trigger_id", U16), ("stats", FLAG), ("msec_since_activation", U32), ("aw_seq_counter", U32),
    ("pay_update_coutner", U32),
];

/// The largest value that the number at a place of a record can have, with the numbers in front of it.
pub fn most(kind: Kind, before: &[u32]) -> u32 {
    match kind {
        Number(most) => most,
        OneOrMap => 1,
        Channel if before.last() == Some(&0) => 0xFF,
        Channel => 0xFFFF,
        Address | Bytes => 0xFF,
    }
}

/// The most characters that a question has.
pub const LONGEST: usize = 16_384;

/// The words of a question. Each method takes some of them, and gives nothing where the question is bad.
pub struct Words<'a>(Box<dyn Iterator<Item = &'a [u8]> + 'a>);

impl<'a> Words<'a> {
    pub fn of(line: &'a [u8]) -> Self {
        Self(Box::new(line.split(|byte| *byte == b' ').filter(|word| !word.is_empty())))
    }

    pub fn text(&mut self) -> Option<&'a str> {
        std::str::from_utf8(self.0.next()?).ok()
    }

    pub fn end(&mut self) -> Option<()> {
        self.0.next().is_none().then_some(())
    }

    pub fn number(&mut self, most: u64) -> Option<u64> {
        number(self.text()?).filter(|number| *number <= most)
    }

    pub fn u8(&mut self) -> Option<u8> {
        self.number(0xFF).map(|number| number as u8)
    }

    pub fn usize(&mut self) -> Option<usize> {
        self.number(u64::MAX).map(|number| number as usize)
    }

    pub fn bytes(&mut self) -> Option<Vec<u8>> {
        bytes(self.text()?)
    }

    pub fn record<const N: usize>(&mut self, fields: Fields) -> Option<[u32; N]> {
        let mut numbers = Vec::new();
        for (name, kind) in fields {
            let word = self.text()?;
            let word = match word.split_once('=') {
                Some((said, value)) => (said == *name).then_some(value)?,
                None => word,
            };
            match kind {
                Address | Bytes => {
                    let some = bytes(word).filter(|some| some.len() == kind.numbers() && (*kind == Bytes || word.len() == 12))?;
                    numbers.extend(some.iter().map(|byte| u32::from(*byte)));
                }
                OneOrMap => numbers.push(["single", "map"].iter().position(|said| *said == word)? as u32),
                _ => numbers.push(number(word).filter(|number| *number <= most(*kind, &numbers).into())? as u32),
            }
        }
        numbers.try_into().ok()
    }
}

fn number(word: &str) -> Option<u64> {
    let digits = word.len() <= 20 && word.bytes().all(|byte| byte.is_ascii_digit());
    word.parse().ok().filter(|_| digits)
}

fn bytes(word: &str) -> Option<Vec<u8>> {
    let byte = |two: &str| u8::from_str_radix(two, 16).ok().filter(|_| two.bytes().all(|digit| digit.is_ascii_hexdigit()));
    let mut all = Vec::new();
    for part in word.split('+').filter(|_| word != "-") {
        match part.split_once('*') {
            Some((two, times)) if two.len() == 2 => all.extend(vec![byte(two)?; number(times).filter(|times| *times <= 66_000)? as usize]),
            None if !part.is_empty() && part.len() % 2 == 0 && part.is_ascii() => {
                for at in (0..part.len()).step_by(2) {
                    all.push(byte(&part[at..at + 2])?);
                }
            }
            _ => return None,
        }
    }
    (all.len() <= 66_000).then_some(all)
}

pub fn hex(bytes: &[u8]) -> String {
    match bytes {
        [] => "-".to_string(),
        some => some.iter().map(|byte| format!("{byte:02X}")).collect(),
    }
}

/// The fields of a record with their names, as an answer ends with them.
pub fn show(fields: Fields, mut numbers: &[u32]) -> String {
    let mut line = String::new();
    for (name, kind) in fields {
        let (own, rest) = numbers.split_at(kind.numbers());
        numbers = rest;
        let _ = match kind {
            Address | Bytes => write!(line, " {name}={}", hex(&own.iter().map(|number| *number as u8).collect::<Vec<_>>())),
            OneOrMap => write!(line, " {name}={}", ["single", "map"].get(own[0] as usize).unwrap_or(&"?")),
            _ => write!(line, " {name}={}", own[0]),
        };
    }
    assert!(numbers.is_empty(), "a record has as many numbers as its fields");
    line
}

/// The stored questions with their answers.
pub fn stored() -> Vec<(Vec<u8>, String)> {
    let folder = concat!(env!("CARGO_MANIFEST_DIR"), "/../../crates/ask/");
    let read = |name: &str| std::fs::read(format!("{folder}{name}")).unwrap_or_else(|why| panic!("{folder}{name}: {why}"));
    let (questions, answers) = (read("stdin"), String::from_utf8(read("stdout")).expect("answers are text"));
    // A line that is too long is a question, and a bad one, even if it is a remark or spaces alone.
    let remark = |line: &[u8]| line.len() <= LONGEST && (line.first() == Some(&b'#') || line.iter().all(|byte| *byte == b' '));
    let asked: Vec<_> = questions.split(|byte| *byte == b'\n').filter(|line| !remark(line)).map(<[u8]>::to_vec).collect();
    assert_eq!(asked.len(), answers.lines().count(), "a line answers each question");
    asked.into_iter().zip(answers.lines().map(str::to_string)).collect()
}
