//! Records of CSV, as Rust's crate `csv` reads and writes them with its defaults.
use rstd::{AllocError, Global, Vec};

#[derive(Debug)]
pub struct ByteRecord { bytes: std::vec::Vec<u8>, ends: std::vec::Vec<usize> }

impl ByteRecord {
    pub fn new(_: Global) -> Self { ByteRecord { bytes: std::vec::Vec::new(), ends: std::vec::Vec::new() } }
    pub fn get(&self, i: usize) -> Option<&[u8]> {
        let end = *self.ends.get(i)?;
        let start = if i == 0 { 0 } else { self.ends[i - 1] };
        Some(&self.bytes[start..end])
    }
    pub fn len(&self) -> usize { self.ends.len() }
    pub fn push_field(&mut self, field: &[u8]) -> Result<(), AllocError> {
        self.bytes.extend_from_slice(field);
        self.ends.push(self.bytes.len());
        Ok(())
    }
    pub fn clear(&mut self) { self.bytes.clear(); self.ends.clear(); }
}

pub struct Reader<R> { left: R }

impl Reader<&[u8]> {
    pub fn read_byte_record(&mut self, into: &mut ByteRecord) -> Result<bool, ()> {
        into.clear();
        let text = self.left;
        let mut at = 0;
        while at < text.len() && (text[at] == b'\n' || text[at] == b'\r') { at += 1; }
        if at == text.len() { self.left = &text[at..]; return Ok(false); }
        loop {
            // a field
            if at < text.len() && text[at] == b'"' {
                at += 1;
                let mut is_open = true;
                while at < text.len() {
                    let byte = text[at];
                    if is_open {
                        if byte == b'"' {
                            if at + 1 < text.len() && text[at + 1] == b'"' { into.bytes.push(b'"'); at += 2; continue; }
                            is_open = false;
                        } else { into.bytes.push(byte); }
                        at += 1;
                    } else {
                        if byte == b',' || byte == b'\n' || byte == b'\r' { break; }
                        into.bytes.push(byte);
                        at += 1;
                    }
                }
            } else {
                while at < text.len() && text[at] != b',' && text[at] != b'\n' && text[at] != b'\r' {
                    into.bytes.push(text[at]);
                    at += 1;
                }
            }
            into.ends.push(into.bytes.len());
            if at < text.len() && text[at] == b',' { at += 1; continue; }
            if at < text.len() {
                let is_return = text[at] == b'\r';
                at += 1;
                if is_return && at < text.len() && text[at] == b'\n' { at += 1; }
            }
            self.left = &text[at..];
            return Ok(true);
        }
    }
}

pub struct ReaderBuilder;
impl ReaderBuilder {
    pub fn new() -> Self { ReaderBuilder }
    pub fn has_headers(self, _: bool) -> Self { self }
    pub fn flexible(self, _: bool) -> Self { self }
    pub fn from_reader<R>(self, _: Global, left: R) -> Reader<R> { Reader { left } }
}

pub struct Writer<W> { text: W }
impl Writer<Vec<u8>> {
    pub fn write_byte_record(&mut self, record: &ByteRecord) -> Result<(), ()> {
        let text = &mut self.text.0;
        for i in 0..record.len() {
            let field = record.get(i).unwrap();
            if i > 0 { text.push(b','); }
            let is_alone = field.is_empty() && record.len() == 1;
            if is_alone || field.iter().any(|byte| matches!(byte, b',' | b'"' | b'\n' | b'\r')) {
                text.push(b'"');
                for &byte in field { if byte == b'"' { text.push(b'"'); } text.push(byte); }
                text.push(b'"');
            } else { text.extend_from_slice(field); }
        }
        text.push(b'\n');
        Ok(())
    }
    pub fn into_inner(self) -> Result<Vec<u8>, ()> { Ok(self.text) }
}

pub struct WriterBuilder;
impl WriterBuilder {
    pub fn new() -> Self { WriterBuilder }
    pub fn flexible(self, _: bool) -> Self { self }
    pub fn from_writer<W>(self, text: W) -> Writer<W> { Writer { text } }
}
