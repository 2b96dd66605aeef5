//! The blocks of a programme sheet as bytes, and code from other files put in.

use std::borrow::Cow;
use std::ffi::OsStr;

use model::{count, Block, Code, Floor, Names, Programme};
use muntyzhap::sheet::{
    Block as Built, FLOOR_BYTES, LENGTH_BYTES, MOST_BLOCKS, MOST_CODE, REGION_BYTES,
};

use crate::close::perhaps;
use crate::ending::Failure;
use crate::files;
use crate::hints;
use crate::job::Job;
use crate::options::{split, Given};

/// The blocks of a sheet whose sizes, length and block lengths are right, their
/// code as it is.
pub fn as_bytes(sheet: &[u8]) -> Option<Programme> {
    let (number, rest) = sheet.split_first()?;
    let number = usize::from(*number);
    let (size, rest) = rest.split_first_chunk()?;
    let (regions, rest) = rest.split_at_checked(number * REGION_BYTES)?;
    let (lengths, rest) = rest.split_at_checked(number * LENGTH_BYTES)?;
    let (floors, mut code) = rest.split_at_checked(number * FLOOR_BYTES)?;
    if code.len() != usize::from(u16::from_le_bytes(*size)) {
        return None;
    }
    let mut blocks = vec![];
    let (lengths, _) = lengths.as_chunks();
    for ((region, floor), length) in regions.iter().zip(floors).zip(lengths) {
        let length = u16::from_le_bytes(*length).into();
        let (own, after) = code.split_at_checked(length)?;
        code = after;
        blocks.push(Block {
            region: region & !Built::ENDORSED,
            floor: match region & Built::ENDORSED {
                0 => Floor::Ignored(*floor),
                _ => Floor::DownTo(*floor),
            },
            code: Code::Raw(own.to_vec()),
        });
    }
    code.is_empty().then_some(Programme { blocks })
}

/// At which byte of the sheet each block's code starts; none where that cannot be
/// told. The code is what a sheet ends with.
pub fn starts(sheet: &[u8]) -> Vec<usize> {
    let blocks = as_bytes(sheet).unwrap_or_default().blocks;
    let lengths: Vec<usize> = blocks.iter().map(length).collect();
    let code: usize = lengths.iter().sum();
    let starts = lengths.iter().scan(sheet.len() - code, |at, length| {
        let start = *at;
        *at += length;
        Some(start)
    });
    starts.collect()
}

fn length(block: &Block) -> usize {
    match &block.code {
        Code::Raw(bytes) => bytes.len(),
        Code::Command(command) => notation::emit(command).bytes.len(),
    }
}

/// Where code goes: into a block that there is, or into a new last one.
#[derive(Debug, Clone, Copy, PartialEq, Eq)]
enum Target {
    Named(usize),
    /// The one block of its region.
    Only(usize),
    New(u8),
}

impl Target {
    /// Of a block that there is.
    fn number(self) -> Option<usize> {
        match self {
            Target::Named(block) | Target::Only(block) => Some(block),
            Target::New(_) => None,
        }
    }
}

/// A file that is to be the code of a block.
struct Asked<'a> {
    name: Cow<'a, str>,
    path: &'a OsStr,
}

/// Puts code from files into the programme, as `--block NAME=FILE` asks, and says
/// of each where it went. The region is the laboratory's choice: nothing in the
/// file has a say in it.
pub fn put_in(job: &mut Job, given: &Given) -> Result<Vec<String>, Failure> {
    let asked = asked(given)?;
    let mut notes = vec![];
    if asked.is_empty() {
        return Ok(notes);
    }
    let Some(mut programme) = as_bytes(&job.programme) else {
        let note = "--block: nothing is put in, since the programme sheet is damaged";
        return Ok(vec![note.to_string()]);
    };
    let slots = job.store_read().sizes.map_or(0, |sizes| sizes.slots);
    // Names mean the programme as it was, whatever is put in before.
    let targets = targets(&asked, &programme, job)?;
    let mut taken = vec![];
    for (asked, target) in asked.iter().zip(targets) {
        let (file, code) = (files::name(asked.path), files::read(asked.path)?);
        let hint = hints::no_code(&file, &code, slots);
        let number = put(&mut programme, target, code);
        job.names.blocks.resize(programme.blocks.len(), None);
        job.sources.block(number, &asked.name, &file);
        notes.push(note(job, &programme, target, number, &file));
        notes.extend(hint);
        taken.push((number, file));
    }
    fits(&programme, &taken, job)?;
    job.programme = notation::programme_bytes(&programme)
        .map_err(|error| Failure::told(format!("--block: {error}")))?;
    Ok(notes)
}

fn asked(given: &Given) -> Result<Vec<Asked<'_>>, Failure> {
    let mut all: Vec<Asked> = vec![];
    for asked in given.values("--block") {
        let (name, path) = split(asked);
        let path = path.filter(|path| !path.is_empty() && !name.is_empty());
        let wrong = || given.wrong("--block needs NAME=FILE after it");
        let (name, path) = (name.to_string_lossy(), path.ok_or_else(wrong)?);
        if all.iter().any(|other| other.name == name) {
            return Err(Failure::told(format!("--block {name}: it is given twice")));
        }
        all.push(Asked { name, path });
    }
    Ok(all)
}

/// Where each goes. A block by its name and by its region is one block.
fn targets(asked: &[Asked], programme: &Programme, job: &Job) -> Result<Vec<Target>, Failure> {
    let mut targets: Vec<Target> = vec![];
    for Asked { name, .. } in asked {
        let target = find(name, programme, job)?;
        let same = |other: &Target| target.number().is_some() && other.number() == target.number();
        if let Some(other) = targets.iter().position(same) {
            let other = &asked[other].name;
            return Err(Failure::told(format!(
                "--block {name}: that is the block {other}, which is given too"
            )));
        }
        targets.push(target);
    }
    Ok(targets)
}

/// Refuses more blocks or code than a sheet takes. Of several files the one with
/// the most code is told.
fn fits(programme: &Programme, taken: &[(usize, String)], job: &Job) -> Result<(), Failure> {
    let blocks = &programme.blocks;
    let own = |number: usize| blocks.get(number).map_or(0, length);
    let Some((number, file)) = taken.iter().max_by_key(|(number, _)| own(*number)) else {
        return Ok(());
    };
    let region = blocks.get(*number).map_or(0, |block| block.region);
    let region = job.names.principal(region.into());
    let (own, all) = (own(*number), blocks.iter().map(length).sum::<usize>());
    if all > MOST_CODE {
        let (own, others) = (count(own, "byte"), all - own);
        return Err(Failure::told(format!(
            "{file}: too long for block {number}, region {region}: it has {own} of code and the other blocks \
             {others}, and a programme has at most {MOST_CODE} bytes of code in all"
        )));
    }
    if blocks.len() > MOST_BLOCKS {
        let number = blocks.len();
        return Err(Failure::told(format!(
            "{file}: too many blocks: there would be {number}, and a programme has at most {MOST_BLOCKS}"
        )));
    }
    Ok(())
}

/// Which block a name means: the one of that name, or the one block of the region
/// of that name, or a new one of it.
fn find(name: &str, programme: &Programme, job: &Job) -> Result<Target, Failure> {
    let names = &job.names;
    let numbers = 0..programme.blocks.len();
    if let Some(block) = numbers
        .clone()
        .find(|block| names.block(*block) == Some(name))
    {
        return Ok(Target::Named(block));
    }
    let principals: Vec<String> = job.principals().map(|one| names.principal(one)).collect();
    let Some(region) = principals.iter().position(|principal| principal == name) else {
        return Err(unknown(name, &principals, names));
    };
    let of_region: Vec<usize> = numbers
        .filter(|block| usize::from(programme.blocks[*block].region) == region)
        .collect();
    match of_region[..] {
        [] => Ok(Target::New(region as u8)),
        [only] => Ok(Target::Only(only)),
        _ => Err(several(name, &of_region, names)),
    }
}

fn unknown(name: &str, principals: &[String], names: &Names) -> Failure {
    let blocks = names.blocks.iter().flatten();
    let known: Vec<&str> = blocks.chain(principals).map(String::as_str).collect();
    let perhaps = perhaps(name, known.iter().copied());
    Failure::told(format!(
        "--block {name}: no block and no principal has that name{perhaps} (there are {})",
        known.join(", ")
    ))
}

fn several(name: &str, blocks: &[usize], names: &Names) -> Failure {
    let told = blocks.iter().map(|block| match names.block(*block) {
        Some(own) => format!("block {block} ({own})"),
        None => format!("block {block}"),
    });
    let told = told.collect::<Vec<_>>().join(", ");
    Failure::told(format!(
        "--block {name}: several blocks have that region: {told}; give the block a name in the text, as in \
         `block intake : {name} {{ .. }}`, and use that"
    ))
}

/// Puts it there, and gives the block's number.
fn put(programme: &mut Programme, target: Target, code: Vec<u8>) -> usize {
    let code = Code::Raw(code);
    match target {
        Target::Named(block) | Target::Only(block) => {
            programme.blocks[block].code = code;
            block
        }
        Target::New(region) => {
            let floor = Floor::Ignored(0);
            programme.blocks.push(Block {
                region,
                floor,
                code,
            });
            programme.blocks.len() - 1
        }
    }
}

/// Where a file's code went.
fn note(job: &Job, programme: &Programme, target: Target, number: usize, file: &str) -> String {
    let what = match target {
        Target::Named(_) => "by its name",
        Target::Only(_) => "the one block of its region",
        Target::New(_) => "a new last block",
    };
    let block = &programme.blocks[number];
    let size = count(length(block), "byte");
    let region = job.names.principal(block.region.into());
    let endorsed = match block.floor {
        Floor::DownTo(floor) => format!("endorsed down to {}", job.names.principal(floor.into())),
        Floor::Ignored(_) => "not endorsed".to_string(),
    };
    format!("{file}: {size} of code for block {number} ({what}), region {region}, {endorsed}")
}
