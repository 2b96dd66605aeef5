//! `muntyzhap dis`: sheets become a listing, or a text.

mod sheets;

use inspect::{Refused, Sheet};
use model::{Names, Store};
use muntyzhap::{raw, Refusal};
use notation::{text, Tables};

use crate::ending::{Ended, Failure, Status};
use crate::files;
use crate::input::{Input, Taken};
use crate::job;
use crate::options::Given;
use crate::streams::Streams;

use sheets::{Asked, Sheets};

pub fn run(given: &Given, streams: &mut Streams) -> Ended {
    let [file] = &given.files[..] else {
        return Err(given.wrong("one file is listed: give its name, or - for standard input"));
    };
    job::once(given)?;
    let (asked, taken) = (Asked::of(given)?, Taken::of(given)?);
    let input = Input::read(file, taken)?;
    if let Some(doubt) = &input.doubt {
        streams.note(doubt);
    }
    let mut sheets = asked.sheets(input)?;
    if let Some(hint) = &sheets.hint {
        streams.note(hint);
    }
    sheets.put_in(given, streams)?;
    let refused = sheets.refused();
    if given.has("--text") {
        return match refused {
            None => write_text(&sheets, streams),
            Some((sheet, refused)) => {
                let place = sheets.put_in_place(&refused);
                Err(not_good(&files::name(file), sheet, &refused, place))
            }
        };
    }
    streams.say(&listing(&sheets))?;
    Ok(match refused {
        None => Status::Done,
        Some(_) => Status::Refused,
    })
}

fn listing(sheets: &Sheets) -> String {
    let store = sheets.store.as_ref().filter(|_| sheets.store_is_own);
    let store = store.map(|bytes| Sheet { bytes, at: 0 });
    let programme = sheets.programme.as_ref();
    let programme = programme.map(|(at, bytes)| Sheet { bytes, at: *at });
    inspect::listing(store, programme, sheets.sizes(), &sheets.names)
}

/// The notation of good sheets. A programme that has names needs the lines that
/// declare them to be assembled, so they stand before it.
fn write_text(sheets: &Sheets, streams: &mut Streams) -> Ended {
    let names = &sheets.names;
    let store = sheets.store.as_deref().and_then(inspect::store_model);
    let (principals, slots) = sheets.most();
    let programme = sheets.programme.as_ref();
    let programme =
        programme.and_then(|(_, sheet)| inspect::programme_model(sheet, principals, slots));
    let declared = match (store, &sheets.tables) {
        (Some(store), _) => Some(text::store(&store, names)),
        (None, Some(tables)) => Some(without_values(tables, names)),
        (None, None) => None,
    };
    let programme = programme.map(|programme| text::programme(&programme, names));
    let parts: Vec<String> = declared.into_iter().chain(programme).collect();
    streams.say(&parts.join("\n"))?;
    Ok(Status::Done)
}

/// The lines of a text that gives names and owners to a programme alone.
fn without_values(tables: &Tables, names: &Names) -> String {
    let order = Store {
        masks: tables.masks.clone(),
        slots: vec![],
    };
    let slots = tables.owners.iter().enumerate().map(|(slot, owner)| {
        let owner = names.principal((*owner).into());
        format!("slot {} : {owner}\n", names.slot(slot))
    });
    text::store(&order, names) + &slots.collect::<String>()
}

/// Damaged sheets have no text. Of code that was put in, the place in its file is
/// told too.
fn not_good(name: &str, sheet: &str, refused: &Refused, place: Option<String>) -> Failure {
    let Refused {
        number, at, reason, ..
    } = refused;
    let meaning = Refusal::from_answer(raw::Answer::only(*number));
    let meaning = meaning.map_or("", |refusal| refusal.meaning());
    let place = place.map_or(String::new(), |place| format!("{place}, "));
    Failure::Text(format!(
        "{name}: refused by {number}: {meaning}\n  at {place}byte {at} of the {sheet} sheet\n  {reason}\n  \
         `muntyzhap dis` lists all that can be read"
    ))
}
