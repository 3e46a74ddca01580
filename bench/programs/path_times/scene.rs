//! The node at which expressions are evaluated: an element of a shop, three levels deep.

ghost use Rattle.std.specs.Prelude.{◌≡◌, List as Items, Option, Some, if◌then◌else◌, OnOk};
ghost use Rattle.node_stack.specs.Test.{same as same_text};

use node_stack::{NodeStack, NodeView};
use std::alloc::Global;
use std::io;
use std::io::ErrorKind;
use stx_base::{Attr, First, Limits, List, Memory, Name, NodeTest, Text};
use stxpath_eval::Vars;
use stxpath_values::{Atom, EvalStop};

/// What expressions see.
#[derive(Drop)]
pub struct Scene {
    pub stack: NodeStack,
    pub vars: Variables,
    pub test: NodeTest,
    pub limits: Limits,
}

/// The number of a turn by its name, and a sequence by all others.
#[derive(Drop)]
pub struct Variables {
    turn_name: Text,
    turn: List<Atom>,
    sequence: List<Atom>,
}

impl Vars for Variables {
    ghost value_of = { λ variables name. Some (if same_text name.local variables.turn_name then variables.turn else variables.sequence) };

    fn get(&self, name: &Name) -> Option<&List<Atom>> {
        if name.local.as_str() == self.turn_name.as_str() {
            Some(&self.turn)
        } else {
            Some(&self.sequence)
        }
    }
}

impl Variables {
    /// Another turn.
    pub fn turn(&mut self, number: u32) -> Result<(), Memory> {
        self.turn.truncate(0);
        self.turn.push(Atom::Whole(number as i64))
    }
}

/// The node, and a sequence of so many items.
pub fn scene(alloc: Global, items: u32) -> io::Result<Scene> {
    match made(alloc, items) {
        Ok(scene) => Ok(scene),
        Err(_) => Err(io::Error::from(ErrorKind::OutOfMemory)),
    }
}

fn made(alloc: Global, items: u32) -> Result<Scene, EvalStop> {
    let vars = Variables {
        turn_name: Text::of(alloc, "i")?,
        turn: List::new(alloc),
        sequence: sequence(alloc, items)?,
    };
    let stack = path(alloc)?;
    let test = NodeTest::Name(name(alloc, "item")?);
    Ok(Scene {
        stack,
        vars,
        test,
        limits: Limits::standard(),
    })
}

fn sequence(alloc: Global, items: u32) -> Result<List<Atom>, Memory> {
    let mut sequence = List::new(alloc);
    for _ in 0..items {
        let text = Text::of(alloc, "some text of one item")?;
        sequence.push(Atom::Chars(text))?;
    }
    Ok(sequence)
}

fn name(alloc: Global, local: &str) -> Result<Name, Memory> {
    let local = Text::of(alloc, local)?;
    Ok(Name {
        uri: Text::new(alloc),
        local,
        prefix: Text::new(alloc),
    })
}

fn path(alloc: Global) -> Result<NodeStack, EvalStop> {
    let mut stack = NodeStack::new(alloc, 8)?;
    enter(alloc, &mut stack, "shop")?;
    enter(alloc, &mut stack, "dept")?;
    enter(alloc, &mut stack, "item")?;
    Ok(stack)
}

fn enter(alloc: Global, stack: &mut NodeStack, local: &str) -> Result<(), EvalStop> {
    if !matches!(
        stack.current(),
        NodeView::Document | NodeView::Element { .. }
    ) {
        return Ok(());
    }
    let name = name(alloc, local)?;
    let attrs = attributes(alloc)?;
    let first = First::Chars(Text::of(alloc, "A lamp of brass")?);
    match stack.open(name, attrs, List::new(alloc), first) {
        Ok(()) => Ok(()),
        Err(_) => Err(EvalStop::Memory),
    }
}

fn attributes(alloc: Global) -> Result<List<Attr>, Memory> {
    let mut attrs = List::new(alloc);
    attrs.push(attribute(alloc, "colour", "yellow")?)?;
    attrs.push(attribute(alloc, "sku", "B-17")?)?;
    Ok(attrs)
}

fn attribute(alloc: Global, local: &str, value: &str) -> Result<Attr, Memory> {
    let name = name(alloc, local)?;
    let value = Text::of(alloc, value)?;
    Ok(Attr { name, value })
}
