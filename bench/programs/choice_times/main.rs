//! Chooses a template for elements: `choice_times HOW TEMPLATES ELEMENTS`. There are so many templates, each for elements of a name of its
//! own, and so many elements of these names in turn, each the child of a root. HOW is `path`, where elements are only opened and
//! closed, `table`, where a template is chosen by the scope, or `scan`, where all templates are looked at. What is printed is the sum
//! of the numbers of the templates that were chosen.

ghost use Rattle.std.specs.Prelude.{None};

mod sheet;

use group_scope::{Scope, choose};
use match_patterns::GroupVars;
use node_stack::NodeStack;
use sheet::{name, sheet};
use sheet_model::Sheet;
use std::alloc::Global;
use std::io::ErrorKind;
use std::{env, io};
use stx_base::{Copied, First, Limits, List, Memory, Name};
use stxpath_values::Atom;

struct NoVars;

impl GroupVars for NoVars {
    ghost seen = { λ vars group name. None };

    fn get(&self, _group: u32, _name: &Name) -> Option<&List<Atom>> {
        None
    }
}

#[derive(Clone, Copy, PartialEq, Eq)]
enum How {
    Path,
    Table,
    Scan,
}

fn main(rt: HostRuntime) -> io::Result<()> {
    let words: Vec<String> = env::args(&rt)?.skip(1).collect(rt.alloc())?;
    let [how, templates, elements] = words.as_slice() else {
        return Err(unknown());
    };
    let how = match how.as_str() {
        "path" => How::Path,
        "table" => How::Table,
        "scan" => How::Scan,
        _ => return Err(unknown()),
    };
    let (templates, elements) = (number(templates.as_str())?, number(elements.as_str())?);
    match total(rt.alloc(), how, templates, elements) {
        Ok(total) => println!(rt; "{total}"),
        Err(_) => Err(io::Error::from(ErrorKind::OutOfMemory)),
    }
}

fn unknown() -> io::Error {
    io::Error::from(ErrorKind::InvalidInput)
}

fn number(word: &str) -> io::Result<u32> {
    match u32::from_str_radix(word, 10) {
        Ok(number) => Ok(number),
        Err(_) => Err(unknown()),
    }
}

fn total(alloc: Global, how: How, templates: u32, elements: u32) -> Result<u64, Memory> {
    let sheet = sheet(alloc, templates)?;
    let scope = Scope::build(alloc, &sheet)?;
    let mut names = List::new(alloc);
    for number in 0..templates {
        names.push(name(alloc, number)?)?;
    }
    let limits = Limits::standard();
    let active = List::new(alloc);
    let mut stack = NodeStack::new(alloc, 8)?;
    open(alloc, &mut stack, &name(alloc, templates)?)?;
    let mut total = 0u64;
    let mut next = 0usize;
    for _ in 0..elements {
        open(alloc, &mut stack, &names.as_slice()[next])?;
        next += 1;
        if next == names.len() {
            next = 0;
        }
        let chosen = match how {
            How::Path => None,
            How::Table => scope.select(alloc, &sheet, 0, &stack, &NoVars, &active, &limits)?,
            How::Scan => choose(alloc, &sheet, 0, &stack, &NoVars, &active, &limits)?,
        };
        if let Some(chosen) = chosen {
            total += chosen.template as u64;
        }
        let _closed = stack.close();
    }
    Ok(total)
}

fn open(alloc: Global, stack: &mut NodeStack, name: &Name) -> Result<(), Memory> {
    let name = name.copy(alloc)?;
    match stack.open(name, List::new(alloc), List::new(alloc), First::Nothing) {
        Ok(()) => Ok(()),
        Err(_) => Err(Memory),
    }
}
