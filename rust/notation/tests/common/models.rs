//! Random stores and programmes, all good.

use model::{Block, Code, Command, Expression, Floor, Form, Operator, Programme, Slot, Store};
use muntyzhap::code::{MOST_COMMANDS, MOST_DEPTH, MOST_NESTED};
use muntyzhap::sheet::{MOST_BLOCKS, MOST_CODE, MOST_PRINCIPALS, MOST_SLOTS};
use muntyzhap::Value;

use super::Random;

/// A good order table: sets by inclusion, closed under intersection, with one
/// that has all. Their numbers are in any order.
pub fn masks(random: &mut Random) -> Vec<u32> {
    let letters = random.below(9);
    let mut sets = vec![(1_u32 << letters) - 1];
    let wanted = match random.one_in(4) {
        true => MOST_PRINCIPALS,
        false => 1 + random.below(6),
    };
    for _ in 0..3 * wanted {
        let set = random.next() as u32 & sets[0];
        let meets = sets.iter().map(|other| other & set);
        let mut more: Vec<u32> = meets.filter(|meet| !sets.contains(meet)).collect();
        more.sort_unstable();
        more.dedup();
        if sets.len() + more.len() <= wanted {
            sets.extend(more);
        }
    }
    random.shuffle(&mut sets);
    let below = |upper: &u32| {
        let lower = sets.iter().enumerate();
        let lower = lower.filter(|(_, lower)| *lower & upper == **lower);
        lower.fold(0, |mask, (number, _)| mask | 1 << number)
    };
    sets.iter().map(below).collect()
}

pub fn store(random: &mut Random) -> Store {
    let masks = masks(random);
    let count = match random.below(8) {
        0 => 0,
        1 => MOST_SLOTS,
        _ => 1 + random.below(9),
    };
    let slots = (0..count).map(|_| Slot {
        owner: random.below(masks.len()) as u8,
        value: value(random, count),
    });
    let slots = slots.collect();
    Store { masks, slots }
}

/// A value of any kind, a view where there are slots.
pub fn value(random: &mut Random, slots: usize) -> Value {
    let slot = random.below(slots.max(1)) as u8;
    match random.below(if slots == 0 { 4 } else { 6 }) {
        0..=2 => Value::Integer(random.integer()),
        3 => Value::Truth(random.one_in(2)),
        4 => Value::ReadView(slot),
        _ => Value::WriteView(slot),
    }
}

/// A programme for a store of so many principals and slots.
pub fn programme(random: &mut Random, principals: usize, slots: usize) -> Programme {
    let count = match random.below(12) {
        0 => 0,
        1 => MOST_BLOCKS,
        _ => 1 + random.below(5),
    };
    let mut blocks: Vec<Block> = vec![];
    let mut left = MOST_CODE;
    for _ in 0..count {
        let command = block_command(random, slots);
        let bytes = notation::emit(&command).bytes.len();
        if bytes <= left {
            left -= bytes;
            blocks.push(block(random, principals, command));
        }
    }
    Programme { blocks }
}

fn block(random: &mut Random, principals: usize, command: Command) -> Block {
    let floor = match random.below(4) {
        0 => Floor::DownTo(random.below(principals) as u8),
        1 => Floor::Ignored(random.next() as u8),
        _ => Floor::Ignored(0),
    };
    Block {
        region: random.below(principals) as u8,
        floor,
        code: Code::Command(command),
    }
}

fn block_command(random: &mut Random, slots: usize) -> Command {
    match random.below(20) {
        0 => deepest(random, slots),
        1 => {
            let commands = (0..MOST_COMMANDS).map(|_| command(random, slots, 0));
            of(Form::Sequence(commands.collect()))
        }
        _ => command(random, slots, 4),
    }
}

/// Commands as deep as they may nest, of any forms.
fn deepest(random: &mut Random, slots: usize) -> Command {
    let mut inner = command(random, slots, 0);
    for _ in 1..MOST_DEPTH {
        inner = around(random, slots, inner);
    }
    inner
}

/// A command around this one.
fn around(random: &mut Random, slots: usize, inner: Command) -> Command {
    let guard = expression(random, slots, 1);
    let (one, other) = match random.one_in(2) {
        true => (inner, command(random, slots, 0)),
        false => (command(random, slots, 0), inner),
    };
    of(match random.below(4) {
        0 => Form::Sequence(vec![one, other]),
        1 => Form::While {
            guard,
            body: Box::new(one),
        },
        _ => Form::If {
            guard,
            then_part: Box::new(one),
            else_part: Box::new(other),
        },
    })
}

fn command(random: &mut Random, slots: usize, depth: usize) -> Command {
    if depth == 0 || random.one_in(3) {
        return match random.one_in(4) {
            true => of(Form::Skip),
            false => assignment(random, slots),
        };
    }
    match random.one_in(2) {
        true => {
            let count = 2 + random.below(3);
            let commands = (0..count).map(|_| command(random, slots, depth - 1));
            of(Form::Sequence(commands.collect()))
        }
        false => {
            let inner = command(random, slots, depth - 1);
            around(random, slots, inner)
        }
    }
}

fn assignment(random: &mut Random, slots: usize) -> Command {
    let target = match random.below(3) {
        0 => expression(random, slots, 2),
        _ => Expression::Literal(value(random, slots)),
    };
    let depth = match random.one_in(6) {
        true => MOST_NESTED,
        false => random.below(4),
    };
    let value = expression(random, slots, depth);
    of(Form::Assignment { target, value })
}

/// An expression of at most this depth.
pub fn expression(random: &mut Random, slots: usize, depth: usize) -> Expression {
    if depth == 0 || random.one_in(5) {
        return Expression::Literal(value(random, slots));
    }
    if random.one_in(3) {
        return Expression::Read(Box::new(expression(random, slots, depth - 1)));
    }
    let operator = *random.pick(&Operator::ALL);
    let left = expression(random, slots, depth - 1);
    // Not too many full trees.
    let on_right = if depth > 4 { 1 } else { depth - 1 };
    let right = expression(random, slots, on_right);
    Expression::Operation(operator, Box::new(left), Box::new(right))
}

fn of(form: Form) -> Command {
    Command { at: 0, form }
}
