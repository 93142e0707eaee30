//! What bench/beside compares with, over Rust's crate `bson`:
//!
//!     beside check FILE    walks every element of the documents that stand back to back
//!     beside json FILE     writes each as canonical Extended JSON, one a line

use bson::raw::{RawArray, RawBsonRef, RawDocument};
use bson::{Bson, Document};
use std::io::Write;

type Found = Result<u64, bson::raw::Error>;

/// Reads a value, and returns a number that depends on it.
fn value(value: RawBsonRef) -> Found {
    Ok(match value {
        RawBsonRef::Double(x) => x.to_bits(),
        RawBsonRef::String(s) | RawBsonRef::JavaScriptCode(s) | RawBsonRef::Symbol(s) => s.len() as u64,
        RawBsonRef::Array(a) => array(a)?,
        RawBsonRef::Document(d) => document(d)?,
        RawBsonRef::Boolean(b) => b as u64,
        RawBsonRef::RegularExpression(r) => (r.pattern.len() + r.options.len()) as u64,
        RawBsonRef::JavaScriptCodeWithScope(c) => document(c.scope)?.wrapping_add(c.code.len() as u64),
        RawBsonRef::Int32(n) => n as u64,
        RawBsonRef::Int64(n) => n as u64,
        RawBsonRef::Timestamp(t) => t.time as u64,
        RawBsonRef::Binary(b) => b.bytes.len() as u64,
        RawBsonRef::ObjectId(id) => id.bytes()[0] as u64,
        RawBsonRef::DateTime(d) => d.timestamp_millis() as u64,
        RawBsonRef::Decimal128(d) => d.bytes()[0] as u64,
        _ => 1,
    })
}

fn document(document: &RawDocument) -> Found {
    let mut sum = 0u64;
    for pair in document {
        let (name, inner) = pair?;
        sum = sum.wrapping_add(name.len() as u64).wrapping_add(value(inner)?);
    }
    Ok(sum)
}

fn array(array: &RawArray) -> Found {
    let mut sum = 0u64;
    for inner in array {
        sum = sum.wrapping_add(value(inner?)?);
    }
    Ok(sum)
}

fn main() {
    let words: Vec<String> = std::env::args().collect();
    let data = std::fs::read(&words[2]).unwrap();
    let mut out = std::io::BufWriter::with_capacity(1 << 16, std::io::stdout().lock());
    let (mut rest, mut sum) = (&data[..], 0u64);
    while !rest.is_empty() {
        let length = i32::from_le_bytes(rest[..4].try_into().unwrap()) as usize;
        let (front, behind) = rest.split_at(length);
        if words[1] == "check" {
            sum = sum.wrapping_add(document(RawDocument::from_bytes(front).unwrap()).unwrap());
        } else {
            let json = Bson::Document(Document::from_reader(front).unwrap()).into_canonical_extjson();
            serde_json::to_writer(&mut out, &json).unwrap();
            out.write_all(b"\n").unwrap();
        }
        rest = behind;
    }
    if words[1] == "check" {
        writeln!(out, "{sum}").unwrap();
    }
}
