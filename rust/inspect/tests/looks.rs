//! What listings look like.

mod listed;

use inspect::{listing, split, Sheet, Sizes};
use listed::{bytes_of, file, marks, text_of};
use model::Names;

/// The example of the printing program's input, after its rule and budget.
const TWO_BLOCKS: &[u8] = include_bytes!("../../../examples/two-blocks.bin");

#[test]
fn a_good_file_looks_like_this() {
    let expected = "\
file  in block  bytes                                text
                                                     # store sheet, 31 bytes: good
0005            02                                   # 2 principals
0006            02 00                                # 2 slots
0008            01 00 00 00                          # at or below p0: p0
000C            03 00 00 00                          # at or below p1: p0, p1
                                                     principals p0 < p1
0010            00                                   # slot s0 is owned by p0
0011            01                                   # slot s1 is owned by p1
0012            00 05 00 00 00 00 00 00 00           slot s0 : p0 = 5
001B            00 07 00 00 00 00 00 00 00           slot s1 : p1 = 7
                                                     # programme sheet, 54 bytes: good
0024            02                                   # 2 blocks
0025            2B 00                                # 43 bytes of code
0027            00                                   # block 0: region p0
0028            01                                   # block 1: region p1
0029            15 00                                # block 0: 21 bytes
002B            16 00                                # block 1: 22 bytes
002D            00                                   # block 0: not endorsed, so its floor byte means nothing
002E            00                                   # block 1: not endorsed, so its floor byte means nothing
                                                     block p0 {  # block 0
002F         0  21 10 03 00 00 00 00 00 00 00 00 10    s0 := 42
003B        12  00 2A 00 00 00 00 00 00 00
                                                     }
                                                     block p1 {  # block 1
0044         0  21 10 03 01 00 00 00 00 00 00 00 11    s1 := s0
0050        12  10 02 00 00 00 00 00 00 00 00
                                                     }
";
    assert_eq!(file(&TWO_BLOCKS[5..], 5, &Names::default()), expected);
}

/// Ifs, whiles, sequences in parts and sequences in sequences; with names.
#[test]
fn nested_commands_look_like_this() {
    let text = "block edit : lab endorsed down to dig {
        if 1 < 2 { skip; { skip; skip }; skip } else { while true { a := 7 } };
        skip
    }";
    let declared = "principals dig < lab slot a : lab = 0 slot b : dig = 0";
    let assembled = notation::assemble(&format!("{declared} {text}")).expect("a good text");
    let bytes = assembled.programme.expect("a programme");
    let sizes = Sizes {
        principals: 2,
        slots: 2,
    };
    let sheet = Sheet {
        bytes: &bytes,
        at: 0,
    };
    let listed = listing(None, Some(sheet), Some(sizes), &assembled.names);
    let expected = "\
# programme sheet, 72 bytes: good
# 1 block
# 65 bytes of code
# block 0 (edit): region lab, endorsed
# block 0 (edit): 65 bytes
# block 0 (edit): endorsed down to dig
block edit : lab endorsed down to dig {  # block 0
  # a sequence of 2 commands
  if 1 < 2 {
    # a sequence of 3 commands
    skip;
    {  # a sequence of 2 commands
      skip;
      skip
    };
    skip
  } else {
    while true {
      a := 7
    }
  };
  skip
}";
    let lines: Vec<String> = text_of(&listed).lines().map(str::to_string).collect();
    let said: Vec<&str> = lines
        .iter()
        .map(String::as_str)
        .filter(|line| !line.is_empty())
        .collect();
    assert_eq!(said.join("\n"), expected, "{listed}");
}

/// The first refusal is marked at its byte, the others are told beside it, and
/// blocks after a damaged one are read.
#[test]
fn a_damaged_file_looks_like_this() {
    let mut bytes = TWO_BLOCKS[5..].to_vec();
    bytes[0x11 - 5] = 9;
    bytes[0x27 - 5] = 0x82;
    bytes[0x3B - 5] = 0x27;
    let expected = "\
file  in block  bytes                                text
                                                     # store sheet, 31 bytes: refused by 4, file offset 0011
0005            02                                   # 2 principals
0006            02 00                                # 2 slots
0008            01 00 00 00                          # at or below p0: p0
000C            03 00 00 00                          # at or below p1: p0, p1
                                                     principals p0 < p1
0010            00                                   # slot s0 is owned by p0
0011            09                                   # slot s1 is owned by p9  <-- refused by 4: slot s1 is owned by principal 9, and there are 2 principals, 0 and 1
0012            00 05 00 00 00 00 00 00 00           slot s0 : p0 = 5
001B            00 07 00 00 00 00 00 00 00           # slot s1 holds 7
                                                     # programme sheet, 54 bytes: would be refused by 8, file offset 0027
0024            02                                   # 2 blocks
0025            2B 00                                # 43 bytes of code
0027            82                                   # block 0: region p2, endorsed  <-- also 8: block 0 has principal 2 as its region, and there are 2 principals, 0 and 1
0028            01                                   # block 1: region p1
0029            15 00                                # block 0: 21 bytes
002B            16 00                                # block 1: 22 bytes
002D            00                                   # block 0: endorsed down to p0
002E            00                                   # block 1: not endorsed, so its floor byte means nothing
                                                     block p2 endorsed down to p0 {  # block 0
002F         0  21 10 03 00 00 00 00 00 00 00 00 10    # s0 := ..
003B        12  27                                   <-- also 9: a value of kind 27; kinds are 00 to 03
003C        13  2A 00 00 00 00 00 00 00
                                                     }
                                                     block p1 {  # block 1
0044         0  21 10 03 01 00 00 00 00 00 00 00 11    s1 := s0
0050        12  10 02 00 00 00 00 00 00 00 00
                                                     }
";
    assert_eq!(file(&bytes, 5, &Names::default()), expected);
}

/// A programme that is cut off, and a store sheet that makes its start uncertain.
#[test]
fn what_is_missing_is_marked_where_it_should_stand() {
    let cut = file(&TWO_BLOCKS[5..0x3D], 5, &Names::default());
    let expected = "\
                                                     block p0 {  # block 0
002F         0  21 10 03 00 00 00 00 00 00 00 00 10    # s0 := ..
003B        12  00 2A
                                                       # 14 of 21 bytes are here
                                                     }
                                                     block p1 {  # block 1
                                                       # 0 of 22 bytes are here
                                                     }
003D                                                 <-- refused by 6: the sheet has 25 bytes, and its sizes (2 blocks, 43 bytes of code) ask for 54
";
    assert!(cut.ends_with(expected), "{cut}");

    let short = file(&TWO_BLOCKS[5..0x1F], 5, &Names::default());
    let expected = "\
0012            00 05 00 00 00 00 00 00 00           slot s0 : p0 = 5
001B            00 07 00 00
001F                                                 <-- refused by 1: the sheet has 26 bytes, and its sizes (2 principals, 2 slots) ask for 31
                                                     # where the programme sheet starts is uncertain: the store sheet is refused by 1
                                                     # programme sheet, 0 bytes: would be refused by 6, file offset 001F
001F                                                 <-- also 6: the sheet has 0 bytes, and its sizes alone take 3
";
    assert!(short.ends_with(expected), "{short}");
}

/// Bytes that no block has, and bytes after the sheet; each is one row's mark, and
/// the rows after it have none.
#[test]
fn what_is_too_much_is_marked_at_its_first_byte() {
    let bytes = [
        1, 3, 0, 0, 1, 0, 7, 0x20, 0x20, 0x20, 1, 2, 3, 4, 5, 6, 7, 8, 9, 10, 11, 12, 13,
    ];
    let sheet = Sheet {
        bytes: &bytes,
        at: 0,
    };
    let listed = listing(None, Some(sheet), None, &Names::default());
    let expected = "\
                                                     block p0 ignored 7 {  # block 0
0007         0  20                                     skip
                                                     }
0008            20 20                                <-- also 6: the blocks' lengths add up to 1, and the code has 3 bytes
000A            01 02 03 04 05 06 07 08 09 0A 0B 0C  <-- refused by 6: the sheet has 23 bytes, and its sizes (1 block, 3 bytes of code) ask for 10
0016            0D
";
    assert!(listed.ends_with(expected), "{listed}");
}

/// The start of a programme in a file of its own is never uncertain, and its
/// sizes are those of the store all the same.
#[test]
fn sheets_of_two_files_are_listed_as_such() {
    let (store, programme) = split(&TWO_BLOCKS[5..]);
    let at = 0;
    let listed = |store| {
        let (store, programme) = (
            Sheet { bytes: store, at },
            Sheet {
                bytes: programme,
                at,
            },
        );
        listing(Some(store), Some(programme), None, &Names::default())
    };
    let cut = listed(&store[..30]);
    assert!(
        cut.contains("store sheet, 30 bytes: refused by 1, file offset 001E"),
        "{cut}"
    );
    assert!(cut.contains("programme sheet, 54 bytes: good"), "{cut}");
    assert_eq!(
        marks(&cut, "uncertain") + marks(&cut, "not known"),
        0,
        "{cut}"
    );
    let no_sizes = listed(&store[..2]);
    assert_eq!(marks(&no_sizes, "not known"), 1, "{no_sizes}");
}

/// Of no bytes at all there is a listing too, and of a file of more than 65,535.
#[test]
fn a_listing_has_offsets_as_wide_as_the_file() {
    let names = Names::default();
    let none = file(&[], 0, &names);
    assert!(
        none.contains("0000                                                 <-- refused by 1"),
        "{none}"
    );
    let long = file(&vec![0; 0x12345], 0, &names);
    assert_eq!(bytes_of(&long, 0), vec![0; 0x12345]);
    assert!(
        long.contains("\n00000            00      "),
        "{}",
        &long[..400]
    );
    assert_eq!(listing(None, None, None, &names).lines().count(), 1);
}
