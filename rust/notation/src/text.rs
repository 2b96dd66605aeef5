//! Stores, programmes and their parts as text, in the one form that is canonical:
//! what comes of assembling it comes to the same text again.

mod order;

use model::{
    Block, Code, Command, Expression, Floor, Form, Names, Operator, Programme, Slot, Store,
};
use muntyzhap::Value;

use crate::word::Word;
use crate::NO_FLOOR;

/// What one level of braces is indented by.
const INDENT: &str = "  ";

/// The `principals` and `slot` lines of a store. Its order table is good, and its
/// owners and views are of principals and slots that it has.
pub fn store(store: &Store, names: &Names) -> String {
    let mut text = order::principals(&store.masks, names);
    let slots: Vec<[String; 3]> = (store.slots.iter().enumerate())
        .map(|(number, slot)| slot_parts(number, slot, names))
        .collect();
    let widest = |part: usize| slots.iter().map(|slot| slot[part].chars().count()).max();
    let widths = [0, 1].map(|part| widest(part).unwrap_or(0));
    for slot in &slots {
        text += &slot_line(slot, widths);
        text.push('\n');
    }
    text
}

/// The line of one slot.
pub fn slot(number: usize, slot: &Slot, names: &Names) -> String {
    slot_line(&slot_parts(number, slot, names), [0, 0])
}

/// A slot's name, its owner and its value.
fn slot_parts(number: usize, slot: &Slot, names: &Names) -> [String; 3] {
    let owner = names.principal(slot.owner.into());
    [names.slot(number), owner, names.value(slot.value)]
}

fn slot_line([name, owner, value]: &[String; 3], [names, owners]: [usize; 2]) -> String {
    format!("{} {name:names$} : {owner:owners$} = {value}", Word::Slot)
}

/// The `block`s of a programme, or `no blocks`. Of a block whose code is bytes
/// ([`Code::Raw`]) only a comment is written, between braces that have no command:
/// such a text does not assemble, rather than come to something else.
pub fn programme(programme: &Programme, names: &Names) -> String {
    if programme.blocks.is_empty() {
        return format!("{} {}\n", Word::No, Word::Blocks);
    }
    let blocks = programme.blocks.iter().enumerate();
    blocks
        .map(|(number, block)| block_text(number, block, names))
        .collect()
}

/// What stands before a block's braces: its name, its region and its floor.
pub fn block_head(number: usize, region: u8, floor: Floor, names: &Names) -> String {
    let mut text = format!("{} ", Word::Block);
    if let Some(name) = names.block(number) {
        text += &format!("{name} : ");
    }
    text += &names.principal(region.into());
    match floor {
        Floor::DownTo(floor) => {
            let words = format!("{} {} {}", Word::Endorsed, Word::Down, Word::To);
            text += &format!(" {words} {}", names.principal(floor.into()));
        }
        Floor::Ignored(NO_FLOOR) => {}
        Floor::Ignored(byte) => text += &format!(" {} {byte}", Word::Ignored),
    }
    text
}

fn block_text(number: usize, block: &Block, names: &Names) -> String {
    let mut text = block_head(number, block.region, block.floor, names);
    text.push(' ');
    match &block.code {
        Code::Command(command) => body(&mut text, command, "", names),
        Code::Raw(bytes) => {
            let count = bytes.len();
            text += &format!("{{\n{INDENT}# {count} bytes of code that are no command\n}}");
        }
    }
    text.push('\n');
    text
}

/// A command in braces: of a sequence its commands, of any other itself.
fn body(text: &mut String, command: &Command, indent: &str, names: &Names) {
    let commands = match &command.form {
        Form::Sequence(commands) => commands.as_slice(),
        _ => std::slice::from_ref(command),
    };
    let inner = format!("{indent}{INDENT}");
    text.push('{');
    for (number, command) in commands.iter().enumerate() {
        text.push_str(if number == 0 { "\n" } else { ";\n" });
        text.push_str(&inner);
        whole_command(text, command, &inner, names);
    }
    text.push('\n');
    text.push_str(indent);
    text.push('}');
}

/// A command with those inside, from where its line is indented already.
fn whole_command(text: &mut String, command: &Command, indent: &str, names: &Names) {
    match &command.form {
        Form::Skip | Form::Assignment { .. } => text.push_str(&command_line(command, names)),
        Form::Sequence(_) => body(text, command, indent, names),
        Form::While { body: inner, .. } => {
            text.push_str(&command_line(command, names));
            text.push(' ');
            body(text, inner, indent, names);
        }
        Form::If {
            then_part,
            else_part,
            ..
        } => {
            text.push_str(&command_line(command, names));
            text.push(' ');
            body(text, then_part, indent, names);
            else_text(text, else_part, indent, names);
        }
    }
}

/// An else-part: nothing where it is `skip`, and `else if` where it is an if.
fn else_text(text: &mut String, else_part: &Command, indent: &str, names: &Names) {
    match &else_part.form {
        Form::Skip => {}
        Form::If { .. } => {
            text.push_str(&format!(" {} ", Word::Else));
            whole_command(text, else_part, indent, names);
        }
        _ => {
            text.push_str(&format!(" {} ", Word::Else));
            body(text, else_part, indent, names);
        }
    }
}

/// A command in one line, without those inside: an assignment, `skip`, `if` or
/// `while` with its guard, or `{ .. }` for a sequence.
pub fn command_line(command: &Command, names: &Names) -> String {
    match &command.form {
        Form::Skip => Word::Skip.to_string(),
        Form::Assignment {
            target: place,
            value,
        } => {
            let (place, value) = (target(place, names), expression(value, names));
            format!("{place} := {value}")
        }
        Form::Sequence(_) => "{ .. }".to_string(),
        Form::If { guard, .. } => format!("{} {}", Word::If, expression(guard, names)),
        Form::While { guard, .. } => format!("{} {}", Word::While, expression(guard, names)),
    }
}

/// The target of an assignment: a slot's name for its literal write view, any
/// other expression in brackets.
pub fn target(target: &Expression, names: &Names) -> String {
    match target {
        Expression::Literal(Value::WriteView(slot)) => names.slot((*slot).into()),
        view => format!("[{}]", expression(view, names)),
    }
}

/// An expression, with parentheses where they are needed and nowhere else.
pub fn expression(expression: &Expression, names: &Names) -> String {
    at_level(expression, Level::Comparison, names)
}

/// What may stand somewhere without parentheses, each also what comes after it.
#[derive(Clone, Copy, PartialEq, Eq, PartialOrd, Ord)]
enum Level {
    Comparison,
    Sum,
    Part,
}

fn at_level(expression: &Expression, allowed: Level, names: &Names) -> String {
    match expression {
        Expression::Literal(value) => names.value(*value),
        Expression::Read(view) => match **view {
            Expression::Literal(Value::ReadView(slot)) => names.slot(slot.into()),
            _ => format!("[{}]", at_level(view, Level::Comparison, names)),
        },
        Expression::Operation(operator, left, right) => {
            // A sum is taken from the left, and comparisons are of sums.
            let (level, on_right) = match operator {
                Operator::Sum | Operator::Difference => (Level::Sum, Level::Part),
                Operator::LessThan | Operator::Equal => (Level::Comparison, Level::Sum),
            };
            let (left, right) = (
                at_level(left, Level::Sum, names),
                at_level(right, on_right, names),
            );
            let text = format!("{left} {} {right}", operator.sign());
            match level < allowed {
                true => format!("({text})"),
                false => text,
            }
        }
    }
}
