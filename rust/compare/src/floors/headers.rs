//! Programme sheets by the floors of their blocks: those refused by 8, and those
//! taken in with bytes that mean nothing.

use crate::answers::Answer;
use crate::calls::Call;
use crate::code::Endorsement;
use crate::layout::Layout;
use crate::tally::Checklist;

const GOOD: u32 = 0;
const LENGTH: u32 = 6;
const HEADER: u32 = 8;

/// Bytes that are no principal's, by what they are.
const TOO_HIGH: [&str; 4] = ["n", "80 and a principal", "FF", "others"];

/// None if it is below n.
fn too_high(byte: u8, principals: usize) -> Option<&'static str> {
    let is_principal = |byte: u8| usize::from(byte) < principals;
    let without_80 = byte.checked_sub(Endorsement::MARK);
    let place = match byte {
        _ if is_principal(byte) => return None,
        _ if usize::from(byte) == principals => 0,
        _ if without_80.is_some_and(is_principal) => 1,
        0xFF => 2,
        _ => 3,
    };
    Some(TOO_HIGH[place])
}

/// What refuses a block by 8.
#[derive(Debug, Clone, Copy, PartialEq, Eq)]
enum Fault {
    Region,
    Floor(u8),
}

/// "An endorsed block's floor must be below n, else 8, right after its region."
/// (document 02, N6)
fn fault((region, floor): (u8, u8), principals: usize) -> Option<Fault> {
    if usize::from(region % Endorsement::MARK) >= principals {
        return Some(Fault::Region);
    }
    let floor = Endorsement::in_bytes(region, floor).floor()?;
    (usize::from(floor) >= principals).then_some(Fault::Floor(floor))
}

/// What the first block that is refused by 8 is refused for.
fn first_fault(layout: Layout, sheet: &[u8], principals: usize) -> Option<Fault> {
    let mut headers = layout.headers(sheet);
    headers.find_map(|header| fault(header, principals))
}

/// Where 8 stands among the other numbers, and what a sheet without floors gets.
const ORDER: [&str; 3] = [
    "8 by a floor before 6 by the sum of lengths",
    "6 by the sheet's length before 8 by a floor",
    "6 by a sheet that has no floors",
];

/// What checks of programme sheets come to by what stands ahead of the code.
#[derive(Debug, Clone)]
pub struct Headers {
    regions: u64,
    /// Sheets refused by 8 for these floors.
    floors: Checklist,
    order: Checklist,
    /// Good sheets with these bytes for the floor of a block that is not endorsed.
    ignored: Checklist,
    /// Sheets that are judged by 8, or not, against document 02.
    wrong: u64,
}

impl Default for Headers {
    fn default() -> Headers {
        Headers {
            regions: 0,
            floors: Checklist::new("8 by a floor", TOO_HIGH),
            order: Checklist::new("floors and lengths", ORDER),
            ignored: Checklist::new("floors that mean nothing", TOO_HIGH),
            wrong: 0,
        }
    }
}

impl Headers {
    /// Counts a call if it checks a programme sheet.
    pub fn count(&mut self, call: &Call, answer: Answer) {
        let Call::CheckProgramme {
            sheet, principals, ..
        } = call
        else {
            return;
        };
        match answer.number {
            GOOD => self.count_good(sheet, *principals),
            LENGTH => self.count_length(sheet, *principals),
            HEADER => self.count_header(sheet, *principals),
            _ => (),
        }
    }

    fn count_good(&mut self, sheet: &[u8], principals: usize) {
        let Some(layout) = Layout::of(sheet) else {
            return;
        };
        for (region, floor) in layout.headers(sheet) {
            let endorsed = Endorsement::in_bytes(region, floor).floor().is_some();
            if let (false, Some(sort)) = (endorsed, too_high(floor, principals)) {
                self.ignored.count(sort);
            }
        }
        let fault = first_fault(layout, sheet, principals);
        self.wrong += u64::from(fault.is_some());
    }

    /// By the sheet's length, or else by the sum of its blocks' lengths.
    fn count_length(&mut self, sheet: &[u8], principals: usize) {
        let Some(layout) = Layout::with_headers(sheet) else {
            return;
        };
        let fault = first_fault(layout, sheet, principals);
        let length = layout.wanted_length(sheet);
        if sheet.len() == length {
            self.wrong += u64::from(fault.is_some());
            return;
        }
        if matches!(fault, Some(Fault::Floor(_))) {
            self.order.count(ORDER[1]);
        }
        if layout.blocks > 0 && sheet.len() + layout.blocks == length {
            self.order.count(ORDER[2]);
        }
    }

    fn count_header(&mut self, sheet: &[u8], principals: usize) {
        let layout = Layout::with_headers(sheet);
        match layout.and_then(|layout| first_fault(layout, sheet, principals)) {
            Some(Fault::Region) => self.regions += 1,
            Some(Fault::Floor(floor)) => {
                let sort = too_high(floor, principals);
                sort.into_iter().for_each(|sort| self.floors.count(sort));
                if Layout::of(sheet).is_none() {
                    self.order.count(ORDER[0]);
                }
            }
            None => self.wrong += 1,
        }
    }

    fn lists(&self) -> [&Checklist; 3] {
        [&self.floors, &self.order, &self.ignored]
    }

    /// The counts, line by line.
    pub fn lines(&self) -> Vec<String> {
        let regions = format!("8 by a region ({})", self.regions);
        let lists = self.lists().map(Checklist::to_string);
        [regions].into_iter().chain(lists).collect()
    }

    /// What never came up or is wrong, in words.
    pub fn complaints(&self) -> Vec<String> {
        let regions = (self.regions == 0).then(|| "8 by a region never came up".to_string());
        let lists = self.lists().map(Checklist::complaints).concat();
        let wrong = (self.wrong > 0)
            .then(|| format!("8 or not goes against document 02 in {} sheets", self.wrong));
        regions.into_iter().chain(lists).chain(wrong).collect()
    }
}

#[cfg(test)]
mod tests {
    use super::*;
    use crate::code::{programme_sheet, Block, Command};

    const PRINCIPALS: usize = 3;

    fn block(region: u8, endorsement: Endorsement) -> Block {
        Block {
            region,
            endorsement,
            command: Command::Skip,
        }
    }

    fn endorsed(floor: u8) -> Block {
        block(0, Endorsement::DownTo(floor))
    }

    fn check_of(sheet: Vec<u8>) -> Call {
        Call::CheckProgramme {
            sheet,
            principals: PRINCIPALS,
            slots: 0,
        }
    }

    /// What changes in the lines when the check of this sheet is counted.
    fn counted(sheet: Vec<u8>) -> (u32, Vec<String>) {
        let mut headers = Headers::default();
        let before = headers.lines();
        let call = check_of(sheet);
        let answer = call.second().answer;
        headers.count(&call, answer);
        let changed = before.iter().zip(headers.lines());
        let changed = changed.filter(|(one, other)| *one != other);
        (answer.number, changed.map(|(_, line)| line).collect())
    }

    #[test]
    fn wrong_answers_are_told() {
        let good = programme_sheet(&[endorsed(2)]).bytes;
        let refused = programme_sheet(&[endorsed(3)]).bytes;
        for (sheet, number, wrong) in [
            (&good, 0, 0),
            (&good, 8, 1),
            (&refused, 8, 0),
            (&refused, 0, 1),
            (&refused, 6, 1),
        ] {
            let mut headers = Headers::default();
            headers.count(&check_of(sheet.clone()), Answer::only(number));
            assert_eq!(headers.wrong, wrong, "{number}");
        }
    }

    fn assert_counted(sheet: Vec<u8>, number: u32, expected: &[&str]) {
        let (answer, changed) = counted(sheet);
        assert_eq!(answer, number);
        assert_eq!(changed.len(), expected.len(), "{changed:?}");
        for (line, words) in changed.iter().zip(expected) {
            assert!(line.contains(words), "{changed:?}");
        }
    }

    #[test]
    fn regions_and_floors_are_told_apart() {
        let sheet = |blocks: &[Block]| programme_sheet(blocks).bytes;
        let region = Block::plain(3, Command::Skip);
        assert_counted(sheet(&[region.clone(), endorsed(3)]), 8, &["region (1)"]);
        let floors = [
            (3, "n: 1"),
            (0x81, "principal: 1"),
            (0xFF, "FF: 1"),
            (4, "others: 1"),
        ];
        for (floor, words) in floors {
            let both = block(3, Endorsement::DownTo(floor));
            assert_counted(sheet(&[endorsed(floor), region.clone()]), 8, &[words]);
            assert_counted(sheet(&[endorsed(2), both]), 8, &["region (1)"]);
            let ignored = block(2, Endorsement::Absent { ignored: floor });
            assert_counted(sheet(&[endorsed(2), ignored]), 0, &[words]);
        }
        let ignored = block(2, Endorsement::Absent { ignored: 2 });
        assert_counted(sheet(&[endorsed(2), ignored]), 0, &[]);
    }

    #[test]
    fn floors_stand_between_two_tests_of_lengths() {
        let good = programme_sheet(&[endorsed(3), endorsed(0)]).bytes;
        let layout = Layout::of(&good).expect("a good sheet");
        let mut unlike = good.clone();
        // The low byte of a block's length stands after the regions.
        unlike[layout.region_place(1) + 1] += 1;
        assert_counted(unlike, 8, &["n: 1", "lengths: 1"]);
        let longer = [good.clone(), vec![0]].concat();
        assert_counted(longer, 6, &["before 8 by a floor: 1"]);
        let mut without = programme_sheet(&[endorsed(0), endorsed(0)]).bytes;
        let floors = layout.floor_place(0)..=layout.floor_place(1);
        without.drain(floors);
        assert_counted(without, 6, &["no floors: 1"]);
    }
}
