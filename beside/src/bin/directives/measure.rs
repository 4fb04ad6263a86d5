//! How long each side takes for one directive, on the same directives.

use std::hint::black_box;
use std::time::{Duration, Instant};

use oracle::{ControlAction, CtlDirective};

use crate::compare::as_ascii;
use crate::question::Question;

const SAMPLE: usize = 4_000;
const BLOCKS: usize = 15;

/// The first directives of a run that the Rust can be asked, long ones left out.
#[derive(Default)]
pub struct Sample {
    texts: Vec<ControlAction>,
}

impl Sample {
    pub fn offer(&mut self, question: &Question) {
        let Question { name, value, .. } = question;
        if self.texts.len() == SAMPLE || name.len() + value.len() > 10_000 {
            return;
        }
        if let (Some(name), Some(value)) = (as_ascii(name), as_ascii(value)) {
            let (directive, value) = (name.to_string(), value.to_string());
            self.texts.push(ControlAction { directive, value });
        }
    }

    /// Both sides take turns with blocks; the fastest block of each is told. The Rust is given its `ControlAction`
    /// ready made, and our reader two lists that stay.
    pub fn print(&self) {
        let (mut starts, mut ends) = (vec![0; 512], vec![0; 512]);
        let mut best = [Duration::MAX; 2];
        for _ in 0..BLOCKS {
            let begin = Instant::now();
            for text in &self.texts {
                let (name, value) = (text.directive.as_bytes(), text.value.as_bytes());
                black_box(tivembo::raw::read_directive(
                    name,
                    value,
                    &mut starts,
                    &mut ends,
                ));
            }
            best[0] = best[0].min(begin.elapsed());
            let begin = Instant::now();
            for text in &self.texts {
                black_box(CtlDirective::parse(text));
            }
            best[1] = best[1].min(begin.elapsed());
        }
        let count = self.texts.len().max(1);
        let bytes: usize = self
            .texts
            .iter()
            .map(|t| t.directive.len() + t.value.len())
            .sum();
        let [ours, rust] = best.map(|time| time.as_nanos() / count as u128);
        println!(
            "{ours} ns ours, {rust} ns the Rust, for a directive of {} bytes:",
            bytes / count
        );
        println!("  the fastest of {BLOCKS} blocks, each of the same {count} directives");
    }
}
