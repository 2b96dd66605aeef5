//! Programmes at the limits of documents 01 and 02 and one past them.

use crate::author::{any_byte, Author, Care};
use crate::code::{programme_sheet, sheet_of_codes, Block, Command};
use crate::expressions::{Expression, Operator};
use crate::random::Random;
use crate::sheets::{Part, Sheet, Store};
use crate::values::Value;

/// A programme sheet at some limit or one past it, otherwise good.
pub fn programme_at_limit(random: &mut Random, store: &Store) -> Sheet {
    let past = usize::from(random.one_in(2));
    let mut author = Author::new(random, store, Care::FULL);
    let blocks = match author.random().below(6) {
        0 => vec![nested(&mut author, Command::MOST_DEPTH + past)],
        1 | 2 => vec![deep(&mut author, Expression::MOST_DEPTH + past)],
        3 => vec![counted(&mut author)],
        4 => small_blocks(&mut author, Block::MOST + past),
        _ => filled(&mut author, Block::MOST_CODE + past),
    };
    programme_sheet(&blocks)
}

/// A block with some command at exactly this depth.
fn nested(author: &mut Author, depth: usize) -> Block {
    let region = author.any_region();
    let endorsement = author.any_endorsement(region, 4);
    let mut block = author.block_of_depth(region, endorsement, 0);
    for _ in 1..depth {
        block.command = wrapped(author.random(), block.command);
    }
    block
}

/// The command one deeper, in a part that mostly runs.
fn wrapped(random: &mut Random, inner: Command) -> Command {
    let truth = |holds| Expression::literal(Value::Truth(holds));
    match random.below(60) {
        0..=19 => Command::Sequence(vec![inner, Command::Skip]),
        20..=34 => Command::Sequence(vec![Command::Skip, inner]),
        35..=46 => Command::if_else(truth(true), inner, Command::Skip),
        47..=58 => Command::if_else(truth(false), Command::Skip, inner),
        _ => Command::while_do(truth(random.one_in(4)), inner),
    }
}

/// A block with an expression that is just so deep.
fn deep(author: &mut Author, depth: usize) -> Block {
    let slots = author.table().slots();
    let region = author.any_region();
    let endorsement = author.any_endorsement(region, 4);
    let mut block = author.block_of_depth(region, endorsement, 2);
    let random = author.random();
    let deep = match random.one_in(8) {
        true => Expression::full(random, depth),
        false => Expression::of_depth(random, depth, slots),
    };
    let short = Expression::literal(Value::Truth(random.one_in(2)));
    let with_deep = match random.below(4) {
        0 => Command::while_do(deep, Command::Skip),
        1 => Command::if_else(deep, Command::Skip, Command::Skip),
        2 => Command::Assign {
            target: deep,
            value: short,
        },
        _ => Command::Assign {
            target: short,
            value: deep,
        },
    };
    block.command = Command::Sequence(vec![block.command, with_deep]);
    block
}

/// A block that is a long sequence, mostly of skips.
fn counted(author: &mut Author) -> Block {
    let most = Command::MOST_IN_SEQUENCE;
    let count = match author.random().below(3) {
        0 => most,
        1 => most - 1,
        _ => author.random().between(2, most),
    };
    let region = author.any_region();
    let endorsement = author.any_endorsement(region, 3);
    let commands = (0..count).map(|_| match author.random().one_in(4) {
        true => author.block_of_depth(region, endorsement, 0).command,
        false => Command::Skip,
    });
    Block {
        region,
        endorsement,
        command: Command::Sequence(commands.collect()),
    }
}

fn small_blocks(author: &mut Author, count: usize) -> Vec<Block> {
    let mut small_block = || {
        let region = author.any_region();
        let endorsement = author.any_endorsement(region, 3);
        author.block_of_depth(region, endorsement, 0)
    };
    (0..count).map(|_| small_block()).collect()
}

/// Blocks whose code has exactly this many bytes: a few with a meaning, at
/// random among those that only fill.
fn filled(author: &mut Author, code: usize) -> Vec<Block> {
    let count = author.random().below(4);
    let mut blocks: Vec<Block> = (0..count)
        .map(|_| {
            let region = author.any_region();
            let endorsement = author.any_endorsement(region, 4);
            author.block_of_depth(region, endorsement, 2)
        })
        .collect();
    let mut rest = code - length_of(&blocks);
    while rest > 0 {
        // What is left over is nothing, one byte, or more than three.
        let length = match author.random().one_in(3) {
            true => rest,
            false => author.random().between(4, 9_000),
        };
        let length = if length + 4 > rest { rest } else { length };
        let region = author.any_region();
        let filler = Block {
            region,
            endorsement: author.any_endorsement(region, 2),
            command: filler(length),
        };
        let place = author.random().below(blocks.len() + 1);
        blocks.insert(place, filler);
        rest -= length;
    }
    blocks
}

fn length_of(blocks: &[Block]) -> usize {
    blocks.iter().map(|block| block.command.length()).sum()
}

/// A command of exactly this many bytes that does nothing. None has two or
/// three bytes.
fn filler(length: usize) -> Command {
    const SEQUENCE_START: usize = 2;
    const PIECE: usize = 200;
    let most_flat = SEQUENCE_START + Command::MOST_IN_SEQUENCE;
    if length == 1 {
        return Command::Skip;
    }
    let mut rest = length - SEQUENCE_START;
    let mut commands = Vec::new();
    if length > most_flat {
        while rest > most_flat || commands.is_empty() {
            commands.push(filler(PIECE));
            rest -= PIECE;
        }
        commands.push(filler(rest));
    } else {
        commands.resize(rest, Command::Skip);
    }
    Command::Sequence(commands)
}

/// One or two blocks of code without any form: pieces of code, each repeated
/// some times, so that unknown bytes and ends come at any depth.
pub fn formless_programme(random: &mut Random, principals: usize) -> Sheet {
    let count = random.between(1, 2);
    let regions: Vec<u8> = (0..count).map(|_| random.below(principals) as u8).collect();
    let floors: Vec<u8> = (0..count).map(|_| any_byte(random, principals)).collect();
    let codes: Vec<Sheet> = (0..count).map(|_| formless_code(random)).collect();
    sheet_of_codes(&regions, &floors, &codes)
}

fn formless_code(random: &mut Random) -> Sheet {
    let literal = |before: &[u8], value| {
        let mut sheet = Sheet::default();
        sheet.push(Part::Command, before);
        Expression::literal(value).write_to(&mut sheet);
        sheet.bytes
    };
    let pieces = [
        vec![Expression::LITERAL],
        literal(&[], Value::Integer(7)),
        literal(&[], Value::Truth(true)),
        vec![Expression::READ],
        vec![random.pick(&Operator::ALL).byte()],
        literal(&[random.pick(&Operator::ALL).byte()], Value::Integer(1)),
        vec![Command::SKIP],
        vec![Command::ASSIGN],
        vec![Command::SEQUENCE, 2],
        literal(&[Command::IF], Value::Truth(true)),
        literal(&[Command::WHILE], Value::Truth(false)),
        vec![0],
    ];
    let mut code = Sheet::default();
    for _ in 0..random.between(1, 4) {
        let piece = random.pick(&pieces.each_ref());
        let times = match random.below(4) {
            0 => random.pick(&[8, 9, 31, 32, 33]),
            _ => random.between(1, 3),
        };
        code.push(Part::Command, &piece.repeat(times));
    }
    code
}

#[cfg(test)]
mod tests {
    use super::*;
    use crate::second;
    use second_runner::check_store;

    /// The verdicts on programmes that `make` writes at these sizes.
    fn verdicts(sizes: [usize; 2], make: fn(&mut Author, usize) -> Vec<Block>) -> [Vec<u32>; 2] {
        let verdict = |case, size| {
            let mut random = Random::of_case(12, case);
            let store = Store::random(&mut random);
            assert_eq!(check_store(&store.bytes()), 0);
            let table = &store.table;
            let mut author = Author::new(&mut random, &store, Care::FULL);
            let sheet = programme_sheet(&make(&mut author, size)).bytes;
            second::check_programme(&sheet, table.lattice.principals(), table.slots()).number
        };
        sizes.map(|size| (0..100).map(|case| verdict(case, size)).collect())
    }

    /// At the limit every programme is good, one past it none is.
    fn assert_limit(most: usize, past: u32, make: fn(&mut Author, usize) -> Vec<Block>) {
        let expected = [vec![0; 100], vec![past; 100]];
        assert_eq!(verdicts([most, most + 1], make), expected);
    }

    #[test]
    fn depth_of_commands_and_expressions() {
        assert_limit(Command::MOST_DEPTH, 10, |author, depth| {
            vec![nested(author, depth)]
        });
        assert_limit(Expression::MOST_DEPTH, 10, |author, depth| {
            vec![deep(author, depth)]
        });
    }

    #[test]
    fn blocks_and_code() {
        assert_limit(Block::MOST, 7, small_blocks);
        assert_limit(Block::MOST_CODE, 7, filled);
    }

    #[test]
    fn fillers_have_their_length_and_are_good() {
        let good = |length| {
            let command = filler(length);
            assert_eq!(command.length(), length);
            let block = Block::plain(0, command);
            second::check_programme(&programme_sheet(&[block]).bytes, 1, 0).number == 0
        };
        let lengths = [1].into_iter().chain(4..1_200).chain([16_384]);
        assert!(lengths.into_iter().all(good));
    }

    #[test]
    fn long_sequences_are_good() {
        let [one, other] = verdicts([0, 1], |author, _| vec![counted(author)]);
        assert!(one.iter().chain(&other).all(|number| *number == 0));
    }
}
