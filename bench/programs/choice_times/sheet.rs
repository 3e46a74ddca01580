//! A sheet of one group whose templates are for elements of names of their own.

use sheet_model::{Group, Pass, Sheet, Template, Visibility};
use std::alloc::Global;
use stx_base::{List, Memory, Name, NodeTest, Place, Text};
use stxpath_syntax::{Alternative, Link, PathStep, Pattern};

/// The name of a number.
pub fn name(alloc: Global, number: u32) -> Result<Name, Memory> {
    let written = match format!(in alloc; "name{number}") {
        Ok(written) => written,
        Err(_) => return Err(Memory),
    };
    Ok(Name {
        uri: Text::new(alloc),
        local: Text::from_string(written),
        prefix: Text::new(alloc),
    })
}

pub fn sheet(alloc: Global, templates: u32) -> Result<Sheet, Memory> {
    let mut all = List::new(alloc);
    for number in 0..templates {
        all.push(template(alloc, number)?)?;
    }
    let mut groups = List::new(alloc);
    groups.push(root())?;
    let mut files = List::new(alloc);
    files.push(Text::of(alloc, "names.stx")?)?;
    Ok(Sheet {
        groups,
        templates: all,
        procedures: List::new(alloc),
        buffers: List::new(alloc),
        variables: List::new(alloc),
        strip: false,
        cdata: false,
        files,
    })
}

const AT: Place = Place { file: 0, offset: 0 };

fn root() -> Group {
    Group {
        parent: None,
        name: None,
        pass: Pass::All,
        at: AT,
    }
}

fn template(alloc: Global, number: u32) -> Result<Template, Memory> {
    let step = PathStep {
        link: Link::Start,
        test: NodeTest::Name(name(alloc, number)?),
        predicates: List::new(alloc),
    };
    let mut steps = List::new(alloc);
    steps.push(step)?;
    let mut alternatives = List::new(alloc);
    alternatives.push(Alternative::Steps(steps))?;
    Ok(Template {
        group: 0,
        pattern: Pattern { alternatives },
        priority: None,
        visibility: Visibility::Local,
        public: false,
        new_scope: false,
        params: List::new(alloc),
        body: List::new(alloc),
        at: AT,
    })
}
