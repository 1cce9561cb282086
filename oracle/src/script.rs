//! The text of the scripts of `fields` requests.
use crate::label;
use crate::text::{joined, list, number};
use apac::numbers::{self, REFUSALS, STOPS};
use apac::run::{Action, Op};

/// The widest part of an escaped number, and the greatest least bits of a count.
const ESC_WIDTH: u32 = 16;
const COUNT_BITS: u32 = 4096;

pub fn makes_field(action: Action) -> bool {
    use Action::*;
    matches!(action, Take(_) | Flag | Esc(_) | Payload(_) | Label)
}

pub fn text(ops: &[Op]) -> String {
    joined(ops.iter().map(op_text), ",")
}

pub fn parse(text: &str) -> Result<Vec<Op>, String> {
    let ops: Vec<Op> = list(text).map(parse_op).collect::<Result<_, _>>()?;
    if label::stands_in(&ops) && !label::has_form(&ops) {
        return Err(format!("a label in a script of another form: {text}"));
    }
    Ok(ops)
}

fn op_text(op: &Op) -> String {
    let repeat = match op.repeat {
        1 => String::new(),
        n => format!("{n}*"),
    };
    let name = if makes_field(op.action) {
        format!("@{}", op.name)
    } else {
        String::new()
    };
    format!("{repeat}{}{name}", action_text(op.action))
}

fn action_text(action: Action) -> String {
    match action {
        Action::Take(width) => format!("t{width}"),
        Action::Flag => "f".into(),
        Action::Esc([a, b, c]) => format!("e{a}.{b}.{c}"),
        Action::Payload(bits) => format!("p{bits}"),
        Action::Label => "l".into(),
        Action::Count { value, least } => format!("c{value}.{least}"),
        Action::SetEnd(end) => format!("u{end}"),
        Action::Refuse(number) => format!("x{number}"),
        Action::Stop(number) => format!("s{number}"),
    }
}

fn parse_op(text: &str) -> Result<Op, String> {
    let (repeat, rest) = match text.split_once('*') {
        Some((repeat, rest)) => (number(repeat)?, rest),
        None => (1, text),
    };
    let (action, name) = match rest.split_once('@') {
        Some((action, name)) => (parse_action(action)?, Some(number(name)?)),
        None => (parse_action(rest)?, None),
    };
    if makes_field(action) != name.is_some() {
        return Err(format!("a name is missing or too many: {text}"));
    }
    Ok(Op {
        action,
        repeat,
        name: name.unwrap_or(0),
    })
}

fn parse_action(text: &str) -> Result<Action, String> {
    let letter = text.get(..1).unwrap_or_default();
    let rest = text.get(1..).unwrap_or_default();
    let action = match letter {
        "t" => Action::Take(number(rest)?),
        "f" if rest.is_empty() => Action::Flag,
        "e" => Action::Esc(parts(rest)?),
        "p" => Action::Payload(number(rest)?),
        "l" if rest.is_empty() => Action::Label,
        "c" => {
            let [value, least] = parts(rest)?;
            Action::Count { value, least }
        }
        "u" => Action::SetEnd(number(rest)?),
        "x" => Action::Refuse(number(rest)?),
        "s" => Action::Stop(number(rest)?),
        _ => return Err(format!("no such operation: {text}")),
    };
    if within_limits(action) {
        Ok(action)
    } else {
        Err(format!("an operation outside its limits: {text}"))
    }
}

fn within_limits(action: Action) -> bool {
    match action {
        Action::Take(width) => width <= 64,
        Action::Esc(widths) => widths.iter().all(|&width| width <= ESC_WIDTH),
        Action::Count { least, .. } => least <= COUNT_BITS,
        Action::Refuse(number) => numbers::text(&REFUSALS, number).is_some(),
        Action::Stop(number) => numbers::text(&STOPS, number).is_some(),
        Action::Flag | Action::Payload(_) | Action::Label | Action::SetEnd(_) => true,
    }
}

/// Numbers parted by points.
fn parts<const N: usize>(text: &str) -> Result<[u32; N], String> {
    let parts: Vec<u32> = text.split('.').map(number).collect::<Result<_, _>>()?;
    parts
        .try_into()
        .map_err(|_| format!("not {N} numbers: {text}"))
}
