//! Reads a trace by `serde_json` and looks at the kinds of its values: what the reading alone costs
//! a program that is written in Rust. It judges no range and no rule.

use std::env;
use std::error::Error;
use std::fs::File;
use std::io::{BufRead, BufReader};

use serde_json::{Map, Value};

const BUFFER: usize = 1 << 20;

/// A key of a line, whether it may be absent, and the kind of its value.
struct Field {
    key: &'static str,
    is_optional: bool,
    is_kind: fn(&Value) -> bool,
}

const fn required(key: &'static str, is_kind: fn(&Value) -> bool) -> Field {
    Field {
        key,
        is_optional: false,
        is_kind,
    }
}

const fn optional(key: &'static str, is_kind: fn(&Value) -> bool) -> Field {
    Field {
        key,
        is_optional: true,
        is_kind,
    }
}

const HEADER: &[Field] = &[
    required("version", Value::is_u64),
    required("role", Value::is_string),
    required("max_datagram_size", Value::is_u64),
    optional("max_ack_delay", Value::is_u64),
    optional("initial_rtt", Value::is_u64),
    optional("initial_window", Value::is_u64),
];
const SENT: &[Field] = &[
    required("time", Value::is_u64),
    required("space", Value::is_string),
    required("number", Value::is_u64),
    required("size", Value::is_u64),
    required("eliciting", Value::is_boolean),
    required("in_flight", Value::is_boolean),
    optional("leave", Value::is_string),
];
const ACK: &[Field] = &[
    required("time", Value::is_u64),
    required("space", Value::is_string),
    required("ranges", are_ranges),
    optional("delay", Value::is_u64),
    optional("limited", Value::is_boolean),
];
const LOST: &[Field] = &[
    required("time", Value::is_u64),
    required("space", Value::is_string),
    required("ranges", are_ranges),
];
const TIMER: &[Field] = &[
    required("time", Value::is_u64),
    required("kind", Value::is_string),
    required("space", Value::is_string),
];
const DISCARD: &[Field] = &[
    required("time", Value::is_u64),
    required("space", Value::is_string),
];
const MOMENT: &[Field] = &[required("time", Value::is_u64)];
const METRICS: &[Field] = &[
    required("time", Value::is_u64),
    optional("window", Value::is_u64),
    optional("ssthresh", Value::is_u64),
    optional("bytes_in_flight", Value::is_u64),
    optional("latest_rtt", Value::is_u64),
    optional("min_rtt", Value::is_u64),
    optional("smoothed_rtt", Value::is_u64),
    optional("rttvar", Value::is_u64),
];

/// The fields of a kind of line beside `event`.
fn fields_of(event: &str) -> Option<&'static [Field]> {
    match event {
        "header" => Some(HEADER),
        "sent" => Some(SENT),
        "ack" => Some(ACK),
        "lost" => Some(LOST),
        "timer" => Some(TIMER),
        "discard" => Some(DISCARD),
        "confirmed" | "keys" => Some(MOMENT),
        "metrics" => Some(METRICS),
        _ => None,
    }
}

/// Whether a value is a list of lists of two integers.
fn are_ranges(value: &Value) -> bool {
    value
        .as_array()
        .is_some_and(|ranges| ranges.iter().all(is_range))
}

fn is_range(value: &Value) -> bool {
    let ends = value.as_array().map(Vec::as_slice);
    matches!(ends, Some([first, last]) if first.is_u64() && last.is_u64())
}

/// Whether the values of a line are of the kinds that its event asks for.
fn has_kinds(line: &Map<String, Value>) -> bool {
    let fields = line
        .get("event")
        .and_then(Value::as_str)
        .and_then(fields_of);
    fields.is_some_and(|fields| {
        fields
            .iter()
            .all(|field| line.get(field.key).map_or(field.is_optional, field.is_kind))
    })
}

/// How many lines a trace has, each of which is read.
fn lines_of(path: &str) -> Result<u64, Box<dyn Error>> {
    let mut trace = BufReader::with_capacity(BUFFER, File::open(path)?);
    let mut line = Vec::new();
    let mut lines = 0;
    while trace.read_until(b'\n', &mut line)? > 0 {
        lines += 1;
        let value: Value = serde_json::from_slice(&line)?;
        if !value.as_object().is_some_and(has_kinds) {
            return Err(format!("line {lines} is not in the format").into());
        }
        line.clear();
    }
    Ok(lines)
}

/// How many records a log has, each of which is read into a value: those of a log with a text a
/// line, or the one value that a log in one object is.
fn records_of(path: &str) -> Result<u64, Box<dyn Error>> {
    let mut log = BufReader::with_capacity(BUFFER, File::open(path)?);
    let mut text = Vec::new();
    let mut records = 0;
    while log.read_until(b'\n', &mut text)? > 0 {
        records += 1;
        let record = text.strip_prefix(b"\x1e").unwrap_or(&text);
        let _value: Value = serde_json::from_slice(record)?;
        text.clear();
    }
    Ok(records)
}

fn main() -> Result<(), Box<dyn Error>> {
    let words: Vec<String> = env::args().skip(1).collect();
    match words.as_slice() {
        [path] => println!("lines {}", lines_of(path)?),
        [option, path] if option == "--log" => println!("records {}", records_of(path)?),
        _ => return Err("usage: read [--log] FILE".into()),
    }
    Ok(())
}
