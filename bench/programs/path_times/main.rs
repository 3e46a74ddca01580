//! Evaluates an expression many times at one node: `path_times text EXPRESSION TIMES ITEMS`, or `truth` for its truth. `$i` is the
//! number of the turn, and any other variable a sequence of so many items. What is printed are the characters of all the texts, or
//! how many of the values are true.
#![tactic(auto)]

ghost use Rattle.std.specs.Prelude.{◌≡◌, ◌≤◌, true, IfOk};
ghost use Rattle.stxpath_syntax.specs.Shape.{height, is_called_well};

mod scene;

use scene::{Scene, scene};
use std::alloc::Global;
use std::io::ErrorKind;
use std::{env, io};
use stx_base::{List, Text};
use stxpath_eval::{Env, eval_text, eval_truth};
use stxpath_syntax::{Dialect, Expr, read_expr};
use stxpath_values::EvalStop;

fn main(rt: HostRuntime) -> io::Result<()> {
    let words: Vec<String> = env::args(&rt)?.skip(1).collect(rt.alloc())?;
    let [asked, written, times, items] = words.as_slice() else {
        return Err(unknown());
    };
    let (times, items) = (number(times.as_str())?, number(items.as_str())?);
    let expr = expression(rt.alloc(), written.as_str())?;
    let mut scene = scene(rt.alloc(), items)?;
    let total = total(
        rt.alloc(),
        asked.as_str() == "text",
        &expr,
        &mut scene,
        times,
    )?;
    println!(rt; "{total}")
}

fn unknown() -> io::Error {
    io::Error::from(ErrorKind::InvalidInput)
}

fn number(word: &str) -> io::Result<u32> {
    match u32::from_str_radix(word, 10) {
        Ok(number) => Ok(number),
        Err(_) => Err(unknown()),
    }
}

fn expression(alloc: Global, written: &str) -> io::Result<Expr>
    ensures called_well { IfOk result (λ expr. is_called_well expr ≡ true) }
    ensures low { IfOk result (λ expr. height expr ≤ 64) }
{
    let text = match Text::of(alloc, written) {
        Ok(text) => text,
        Err(_) => return Err(io::Error::from(ErrorKind::OutOfMemory)),
    };
    match read_expr(alloc, &text, &List::new(alloc), Dialect::One) {
        Ok(expr) => Ok(expr),
        Err(_) => Err(unknown()),
    }
}

/// What so many turns give together.
fn total(
    alloc: Global,
    as_text: bool,
    expr: &Expr,
    scene: &mut Scene,
    times: u32,
) -> io::Result<u64>
    requires called_well { is_called_well expr.now ≡ true }
    requires low { height expr.now ≤ 64 }
{
    let mut total = 0u64;
    for turn in 0..times {
        if scene.vars.turn(turn).is_err() {
            return Err(io::Error::from(ErrorKind::OutOfMemory));
        }
        match given(alloc, as_text, expr, scene) {
            Ok(given) => total = total.wrapping_add(given),
            Err(_) => return Err(unknown()),
        }
    }
    Ok(total)
}

/// How many bytes the text has, or one for what is true.
fn given(alloc: Global, as_text: bool, expr: &Expr, scene: &Scene) -> Result<u64, EvalStop>
    requires called_well { is_called_well expr.now ≡ true }
    requires low { height expr.now ≤ 64 }
{
    let place = scene.stack.len() - 1;
    if !scene.stack.is_told(place, &scene.test) {
        return Ok(0);
    }
    let env = Env {
        vars: &scene.vars,
        place,
        test: &scene.test,
        limits: &scene.limits,
    };
    if as_text {
        let text = eval_text(alloc, " ", expr, &scene.stack, &env)?;
        Ok(text.as_str().len() as u64)
    } else {
        let truth = eval_truth(alloc, expr, &scene.stack, &env)?;
        Ok(truth as u64)
    }
}
