//! The whole command, without contracts and without progress.
use ca_flow::{Fault, Watch, answer, tell};
use ca_store::{FileStore, StdSink};
use rstd::Global;
use std::process::ExitCode;

struct Unwatched;
impl Watch for Unwatched {
    fn reported(&mut self, _done: usize, _count: usize) {}
}

fn main() -> ExitCode {
    let mut errors = StdSink::of(2);
    let words: Option<Vec<String>> = std::env::args_os().skip(1).map(|word| word.into_string().ok()).collect();
    let Some(words) = words else { return ExitCode::from(tell(&Fault::BadWords, &mut errors)) };
    let is_watched = words.first().is_some_and(|word| word == "--progress");
    let words = rstd::Vec(words);
    let command = if is_watched { &words[1..] } else { &words[..] };
    let mut store = FileStore::new();
    let mut output = StdSink::of(1);
    ExitCode::from(answer(Global, command, &mut store, &mut output, &mut errors, &mut Unwatched))
}
