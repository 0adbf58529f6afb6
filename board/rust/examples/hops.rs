//! Prints the hops and the channel of a frame. `hops [FILE]` reads one frame, at most 4096 bytes, from the file or from standard input.
//!
//! It ends with 0 where it printed the frame, with 1 where the input is no such frame, and with 2 where it could not read or write, or was called
//! wrongly. `example.c` prints the same.
use awdl::action_frame::AWDLActionFrame;
use awdl::tlvs::data_path::{DataPathChannel, DataPathStateTLV};
use awdl::tlvs::sync_elect::{ChannelSequence, ChannelSequenceTLV, SynchronizationParametersTLV};
use awdl::tlvs::{AwdlTlv, Found, Step};
use awdl::Refusal;
use std::fs::File;
use std::io::{self, Read, Write};
use std::process::ExitCode;

const LONGEST: usize = 4096;

/// What is told on standard error, and the status.
type Failure = (String, u8);

fn refused(why: Refusal) -> Failure {
    (format!("frame refused with {}: {why}", why.number()), 1)
}

fn unwritten(_: io::Error) -> Failure {
    ("cannot write".to_string(), 2)
}

/// Every record of a type, and where it lies in the frame.
fn every<Tlv: AwdlTlv>(tail: &[u8], mut show: impl FnMut(usize, Tlv) -> Result<(), Failure>) -> Result<(), Failure> {
    let mut next = Tlv::first(tail);
    while let Some(Found { at, next: behind, record, .. }) = next {
        show(AWDLActionFrame::HEADER_SIZE + at, record)?;
        next = Tlv::next(tail, behind);
    }
    Ok(())
}

fn hops(sequence: &ChannelSequence) -> Result<String, Failure> {
    let mut channels = Vec::new();
    while let Some(entry) = sequence.entry(channels.len()).map_err(refused)? {
        channels.push(entry.channel().map_err(refused)?.to_string());
    }
    Ok(channels.join(","))
}

fn report(bytes: &[u8], out: &mut impl Write) -> Result<(), Failure> {
    let (frame, _) = AWDLActionFrame::read(bytes).map_err(refused)?;
    let tail = frame.tagged_data.bytes();
    let (subtype, phy, target) = (frame.subtype.into_bits(), frame.phy_tx_time.0, frame.target_tx_time.0);
    writeln!(out, "frame subtype={subtype} reserved={} phy={phy} target={target} delta={}", frame.reserved, frame.tx_delta()).map_err(unwritten)?;
    every(tail, |at, record: SynchronizationParametersTLV| {
        let hops = hops(&record.channel_sequence.channel_sequence)?;
        writeln!(out, "synchronization at={at} hops={hops}").map_err(unwritten)
    })?;
    every(tail, |at, record: ChannelSequenceTLV| {
        let hops = hops(&record.channel_sequence)?;
        writeln!(out, "channel_sequence at={at} hops={hops}").map_err(unwritten)
    })?;
    every(tail, |at, record: DataPathStateTLV| {
        let channel = match record.channel_map {
            None => "channel=none".to_string(),
            Some(DataPathChannel::SingleChannel { channel }) => format!("channel={channel}"),
            Some(DataPathChannel::ChannelMap(map)) => {
                let channels: Vec<_> = map.channels().map(|channel| channel.to_string()).collect();
                format!("channels={}", channels.join(","))
            }
        };
        writeln!(out, "data_path at={at} {channel}").map_err(unwritten)
    })?;
    let (items, at) = frame.tagged_data.raw_tlv_iter().fold((0, 0), |(items, _), item| (items + 1, item.next));
    match frame.tagged_data.step(at) {
        Step::Cut(at) => writeln!(out, "end cut at={} items={items}", AWDLActionFrame::HEADER_SIZE + at),
        _ => writeln!(out, "end whole items={items}"),
    }
    .map_err(unwritten)?;
    out.flush().map_err(unwritten)
}

fn run() -> Result<(), Failure> {
    let mut given = std::env::args_os().skip(1);
    let (file, more) = (given.next(), given.next());
    if more.is_some() {
        return Err(("usage: hops [FILE]".to_string(), 2));
    }
    let mut bytes = Vec::new();
    let read = match &file {
        Some(name) => File::open(name).and_then(|file| file.take(LONGEST as u64 + 1).read_to_end(&mut bytes)),
        None => io::stdin().take(LONGEST as u64 + 1).read_to_end(&mut bytes),
    };
    if read.is_err() {
        let name = file.map_or("standard input".to_string(), |name| name.to_string_lossy().into_owned());
        return Err((format!("cannot read {name}"), 2));
    }
    if bytes.len() > LONGEST {
        return Err((format!("input too long: more than {LONGEST} bytes"), 1));
    }
    report(&bytes, &mut io::BufWriter::new(io::stdout().lock()))
}

fn main() -> ExitCode {
    match run() {
        Ok(()) => ExitCode::SUCCESS,
        Err((message, status)) => {
            eprintln!("hops: {message}");
            ExitCode::from(status)
        }
    }
}
