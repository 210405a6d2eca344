//! The standard output and the standard error, over Rust's std, with no buffer.
use crate::sink::Sink;
use crate::store::{Failed, next};
use std::fs::File;
use std::io::Write;
use std::mem::ManuallyDrop;
use std::os::fd::FromRawFd;

pub struct StdSink { stream: ManuallyDrop<File>, faults: u64 }
impl StdSink {
    pub fn of(descriptor: i32) -> Self {
        StdSink { stream: ManuallyDrop::new(unsafe { File::from_raw_fd(descriptor) }), faults: 0 }
    }
}
impl Sink for StdSink {
    fn write(&mut self, from: &[u8]) -> Result<usize, Failed> {
        match self.stream.write(from) {
            Ok(n) if n > 0 || from.is_empty() => Ok(n),
            _ => { self.faults = next(self.faults); Err(Failed) }
        }
    }
}
