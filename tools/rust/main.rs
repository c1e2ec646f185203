//! The program, as plain Rust. With STEPS in the environment, it tells on standard error how many steps it counted.

use rstd::Vec;
use rstd::alloc::Global;
use std::io::{LineWriter, Read, Stdin, Stdout, Write};
use xs_names::Text;
use xsv_io::{Failed, Sink, Source};
use xsv_run::run_by;
use xsv_steps::{Steps, Tally};

struct Input(Stdin);

impl Source for Input {
    fn read(&mut self, into: &mut [u8]) -> Result<usize, Failed> {
        self.0.lock().read(into).map_err(|_| Failed)
    }
}

struct Output(LineWriter<Stdout>);

impl Sink for Output {
    fn write(&mut self, part: &[u8]) -> Result<usize, Failed> {
        if part.is_empty() {
            return Ok(0);
        }
        self.0.write(part).map_err(|_| Failed)
    }
}

fn main() {
    let mut words = Vec::new(Global);
    for word in std::env::args().skip(1) {
        if let Ok(word) = Text::new(Global, &word) {
            let _ = words.push(word);
        }
    }
    let mut source = Input(std::io::stdin());
    let mut sink = Output(LineWriter::new(std::io::stdout()));
    let mut steps = Steps::new(Tally { count: 0 });
    let status = run_by(Global, Ok(words.as_slice()), &mut source, &mut sink, &mut steps);
    let _ = sink.0.flush();
    if std::env::var_os("STEPS").is_some() {
        eprintln!("{} steps", steps.ledger().count);
    }
    std::process::exit(status.number().into());
}
