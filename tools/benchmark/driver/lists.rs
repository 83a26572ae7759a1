//! Signature lists, for the port as bytes and for the original as its own values.

use oracle::{Signature, bytes, parse_signature};

/// What fits today's Linux SYN exactly.
pub const LINUX: &str = "*:64:0:*:mss*44,7:mss,sok,ts,nop,ws:df,id+:0";

/// A list of document 01 and the same signatures as the original's values, with which are generic. Record i has the label i.
pub struct List {
    pub bytes: Vec<u8>,
    pub signatures: Vec<Signature>,
    pub generic: Vec<bool>,
}

pub fn list_of(lines: &[&str]) -> List {
    list_of_kinds(lines, &vec![false; lines.len()])
}

pub fn list_of_kinds(lines: &[&str], generic: &[bool]) -> List {
    let (mut records, mut layouts) = (Vec::new(), Vec::new());
    let mut signatures = Vec::new();
    for (i, line) in lines.iter().enumerate() {
        let signature = parse_signature(line).expect("a signature");
        let (mut record, mut entries) = ([0u8; 24], [0u8; 80]);
        bytes::put_signature(&mut record, &mut entries, &signature).expect("a record holds it");
        record[18..20].copy_from_slice(&((layouts.len() / 2) as u16).to_be_bytes());
        record[21] = u8::from(generic[i]);
        record[22..24].copy_from_slice(&(i as u16).to_be_bytes());
        layouts.extend_from_slice(&entries[..2 * usize::from(record[20])]);
        records.extend_from_slice(&record);
        signatures.push(signature);
    }
    let mut bytes = Vec::new();
    for number in [lines.len(), 8, layouts.len() / 2, 8 + records.len()] {
        bytes.extend_from_slice(&u16::try_from(number).expect("two bytes").to_be_bytes());
    }
    bytes.extend_from_slice(&records);
    bytes.extend_from_slice(&layouts);
    List { bytes, signatures, generic: generic.to_vec() }
}

/// The signatures of a section of p0f's database, and whether each stands under a generic label.
pub fn section<'a>(database: &'a str, name: &str) -> (Vec<&'a str>, Vec<bool>) {
    let (mut found, mut kinds, mut inside, mut generic) = (Vec::new(), Vec::new(), false, false);
    for line in database.lines().map(str::trim) {
        if line.starts_with('[') {
            inside = line.strip_prefix('[').and_then(|l| l.strip_suffix(']')) == Some(name);
        } else if let Some(rest) = line.strip_prefix("label") {
            generic = rest.trim_start().strip_prefix('=').expect("label = ..").trim_start().starts_with("g:");
        } else if let Some(rest) = line.strip_prefix("sig") {
            if inside {
                found.push(rest.trim_start().strip_prefix('=').expect("sig = ..").trim());
                kinds.push(generic);
            }
        }
    }
    (found, kinds)
}
