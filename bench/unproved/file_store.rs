//! The files of the system, over Rust's std.
use crate::read_files::{FileIdentity, ReadFiles};
use crate::store::{Failed, Store, next};
use std::fs::{File, Metadata};
use std::io::{self, Error, ErrorKind, Read, Write};
use std::os::unix::fs::MetadataExt;

pub struct FileStore { file: OpenFile, read: ReadFiles, faults: u64 }
enum OpenFile { Closed, InReading(File), InWriting(File) }

impl FileStore {
    pub fn new() -> Self { FileStore { file: OpenFile::Closed, read: ReadFiles::new(), faults: 0 } }
    pub fn faults(&self) -> u64 { self.faults }
    fn open_known(&mut self, name: &str) -> io::Result<File> {
        let file = File::open(name)?;
        if let Some(identity) = identity_of(&file.metadata()?) {
            self.read.add(identity).map_err(|_| Error::from(ErrorKind::Other))?;
        }
        Ok(file)
    }
    fn has_read(&self, name: &str) -> bool {
        match std::fs::metadata(name) {
            Ok(found) => match identity_of(&found) { Some(identity) => self.read.has(identity), None => false },
            Err(_) => false,
        }
    }
    fn failed<T>(&mut self) -> Result<T, Failed> { self.faults = next(self.faults); Err(Failed) }
}
fn identity_of(file: &Metadata) -> Option<FileIdentity> {
    if file.is_file() { Some(FileIdentity { device: file.dev(), number: file.ino() }) } else { None }
}
impl Store for FileStore {
    fn open(&mut self, name: &str) -> Result<(), Failed> {
        match self.open_known(name) {
            Ok(file) => { self.file = OpenFile::InReading(file); Ok(()) }
            Err(_) => self.failed(),
        }
    }
    fn read(&mut self, into: &mut [u8]) -> Result<usize, Failed> {
        let OpenFile::InReading(file) = &mut self.file else { unreachable!() };
        match file.read(into) {
            Ok(n) => Ok(n),
            Err(_) => { self.file = OpenFile::Closed; self.failed() }
        }
    }
    fn create(&mut self, name: &str) -> Result<(), Failed> {
        if self.has_read(name) { return self.failed(); }
        match File::create(name) {
            Ok(file) => { self.file = OpenFile::InWriting(file); Ok(()) }
            Err(_) => self.failed(),
        }
    }
    fn write(&mut self, from: &[u8]) -> Result<usize, Failed> {
        let OpenFile::InWriting(file) = &mut self.file else { unreachable!() };
        match file.write(from) {
            Ok(n) if n > 0 || from.is_empty() => Ok(n),
            _ => { self.file = OpenFile::Closed; self.failed() }
        }
    }
    fn close(&mut self) -> Result<(), Failed> { self.file = OpenFile::Closed; Ok(()) }
}
