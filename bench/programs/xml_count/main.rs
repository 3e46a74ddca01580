//! Counts the events of the document on standard input. It measures the reader by itself: its time, and what it keeps.
#![tactic(auto)]

ghost use Rattle.std.specs.Prelude.{◌≡◌};

use std::alloc::Global;
use std::io;
use std::io::{ErrorKind, Read, Write};
use stx_base::{Limits, Spare};
use xml_events::{Event, EventReader, Pull};

/// So many events there were.
#[derive(Drop)]
struct Counts {
    elements: u64,
    texts: u64,
    others: u64,
}

fn main(rt: HostRuntime) -> io::Result<()> {
    let Counts {
        elements,
        texts,
        others,
    } = count(rt.alloc(), &mut rt.stdin())?;
    writeln!(
        rt.stdout(),
        "elements {elements}, texts {texts}, others {others}"
    )
}

/// Counts the events of a whole document.
fn count<R: Read>(alloc: Global, input: &mut R) -> io::Result<Counts> {
    let mut reader = EventReader::new(alloc, Limits::standard(), false);
    let mut spare = Spare::new(alloc);
    let mut counts = Counts {
        elements: 0,
        texts: 0,
        others: 0,
    };
    let mut room = [0u8; 4096];
    for _ in 0..u64::MAX {
        let len = input.read(&mut room)?;
        if len == 0 {
            break;
        }
        if reader.feed(&room[..len]).is_err() {
            return Err(io::Error::from(ErrorKind::OutOfMemory));
        }
        drain(&mut reader, &mut counts, &mut spare)?;
    }
    reader.finish();
    drain(&mut reader, &mut counts, &mut spare)?;
    Ok(counts)
}

/// Counts the events that are known, and lets the next ones be made of their texts.
fn drain(reader: &mut EventReader, counts: &mut Counts, spare: &mut Spare) -> io::Result<()>
    ensures { reader.new.lexer.ended ≡ reader.old.lexer.ended }
{
    'counting: loop {
        match reader.next(spare) {
            Pull::Event(event) => {
                counts.add(&event);
                event.give_back(spare);
            }
            Pull::Need | Pull::End => return Ok(()),
            Pull::Bad(_) => return Err(io::Error::from(ErrorKind::InvalidData)),
            Pull::Memory => return Err(io::Error::from(ErrorKind::OutOfMemory)),
        }
    }
}

impl Counts {
    fn add(&mut self, event: &Event) {
        match event {
            Event::Start { .. } => self.elements = self.elements.saturating_add(1),
            Event::Chars { .. } => self.texts = self.texts.saturating_add(1),
            Event::CData { .. } => self.texts = self.texts.saturating_add(1),
            Event::Comment { .. } => self.others = self.others.saturating_add(1),
            Event::Pi { .. } => self.others = self.others.saturating_add(1),
            Event::End { .. } => {}
            Event::DocumentEnd { .. } => {}
        }
    }
}
