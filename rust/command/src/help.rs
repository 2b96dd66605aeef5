//! What the command says of itself.

/// `muntyzhap help`.
pub const ALL: &str = "\
muntyzhap runs blocks of commands over a store of slots, customers' blocks and the
laboratory's, and refuses what a rule set forbids.

    muntyzhap run FILE [FILE2]       run, and print the end store, or why it was refused
    muntyzhap explain FILE [FILE2]   run, and print only why it was refused
    muntyzhap journal FILE [FILE2]   run, and print who wrote what
    muntyzhap asm FILE -o OUT        make sheets (bytes) of a text
    muntyzhap dis FILE               list sheets, byte by byte, or make a text of them
    muntyzhap help [COMMAND]         say how to use it
    muntyzhap --version

A text has a store and a programme, or either alone. For example, deputy.mz:

    principals nobody < digA, digB < lab
    slot place  : digA = write result    # digA says where its result shall go
    slot result : digA = 0
    slot curve  : lab  = 50000
    block digA { place := write curve }
    block lab  { [place] := 42 }

`principals` says who stands below whom; any two need one below both, and one
stands above all. `slot NAME : OWNER = VALUE` declares a slot; a value is an
integer, true, false, `read SLOT` or `write SLOT` (views of a slot). A block runs
for a principal, its region. In a block

    place := 5                 writes the slot place
    [place] := 5               writes the slot whose write view place holds
    result + 1                 a sum; also -, <, ==, and parentheses
    [place]                    reads the slot whose read view place holds
    if result < 5 { .. } else { .. }    while result < 5 { .. }    skip
    { a := 1; b := 2 }         commands in order, with ; between them

and `block lab endorsed down to digA { .. }` lets that block use what comes from
digA. `#` starts a comment. Then

    muntyzhap run deputy.mz --rule access     finishes: digA had the lab overwrite its curve
    muntyzhap run deputy.mz --rule full       is refused, and says why

Exit status: 0 finished or done; 1 refused or paused, or errors in a text; 2 wrong
use, or a file or stream that failed, or two runners that differ.
";

/// `muntyzhap help run`.
pub const RUN: &str = "\
muntyzhap run FILE [FILE2] [options]

Runs, and prints the answer in words: of a run that finishes the end store as a
table, of a refused one what refused it, where and why.

FILE has a store and a programme, as a text or as sheets (the store sheet, then
the programme sheet); or FILE has one of them and FILE2 the other. Of two files
with sheets the first is the store. `-` is standard input. A file is taken for
text if it is UTF-8 with no control bytes but tabs and line ends.

    --rule RULE          what an assignment needs, by name or number; full if not
                         given. Each but capability needs what access needs
        access, 0        the block's region at or above the slot's owner
        capability, 1    of every write view that the block meets, in whatever
                         expression, an owner at or below its region
        explicit, 2      target and value that come from at or above the owner,
                         or in an endorsed block from at or above its floor
        full, 3          the guards around it, too
        default, 255     what full needs
    --budget N           at most N steps, 0 to 1000000; 1000000 if not given
    --block NAME=FILE    the bytes of FILE, as they are, become the code of the block
                         NAME; or of the one block whose region is NAME; or, if
                         there is none, of a new last block of that region, not
                         endorsed. May be given again
    --entries N          keep a journal of N entries; a write that finds it full is
                         refused. If not given there is one for every step
    --plain              print what the printing program `blockrun` prints, which
                         lends a journal of 512 entries if --entries is not given
    --trace              a line for each step on standard error, with values and
                         labels, by the second runner
    --sheets             take FILE for sheets, whatever it looks like
    --text-input         take FILE for text, whatever it looks like

In slices:

    --slice N            run N steps at a time, with a line on standard error after
                         each. Ctrl-C (SIGINT, SIGTERM) pauses after the slice and
                         writes a checkpoint; a second one ends at once. A spent
                         budget pauses too, with any of these three options
    --checkpoint FILE    where to write it, over a checkpoint that is there; if not
                         given, back to the checkpoint that the run was resumed
                         from, or to FILE.checkpoint if no checkpoint is there
    --resume FILE        carry on from a checkpoint. Without another file its own
                         sheets are run, without names; with files, their sheets
                         have to be the same, so give the same --block too. Rule
                         and budget are the checkpoint's where they are not given;
                         the budget includes the steps so far

Exit status: 0 finished; 1 refused or paused, or errors in a text; 2 wrong use, or
a file or stream that failed, or two runners that differ.
";

/// `muntyzhap help explain`.
pub const EXPLAIN: &str = "\
muntyzhap explain FILE [FILE2] [options]

Runs as `muntyzhap run` does, and prints only why the run was refused: which
sheet, block, line and command, and what was judged with where it came from. Of a
run that finishes it says so in a line. The second runner runs too, and has to
come to the same answer, output and journal as the library. No checkpoint is
written.

    --rule RULE  --budget N  --block NAME=FILE  --entries N  --trace  --resume FILE
    --sheets  --text-input      as `muntyzhap help run` says

Exit status: 0 finished; 1 refused, or errors in a text; 2 wrong use, or a file or
stream that failed, or two runners that differ.
";

/// `muntyzhap help journal`.
pub const JOURNAL: &str = "\
muntyzhap journal FILE [FILE2] [options]

Runs as `muntyzhap run` does, and prints who wrote what: each assignment with its
number, block, place, slot, and the old and the new value. A refused run has no
journal: it is explained.

    --by order           in the order of the writes, which is the usual one
    --by slot            under a heading for each slot
    --by block           under a heading for each block
    --rule RULE  --budget N  --block NAME=FILE  --entries N  --trace
    --sheets  --text-input      as `muntyzhap help run` says

Exit status: 0 finished; 1 refused, or errors in a text; 2 wrong use, or a file or
stream that failed, or two runners that differ.
";

/// `muntyzhap help asm`.
pub const ASM: &str = "\
muntyzhap asm FILE [-o OUT] [--only store|programme|code]

Makes sheets of a text: the store sheet and then the programme sheet, of those
that the text has. `-` is standard input. All errors of the text are told at once,
each with its line and column.

    -o OUT               write them to OUT, which is written whole or not at all; if
                         not given, to standard output, unless that is a terminal
    --only store         the store sheet alone
    --only programme     the programme sheet alone
    --only code          the code of the text's one block, as a customer sends it and
                         `--block NAME=FILE` takes it

A customer's text has the store's names in `principals` lines and `slot` lines,
without values if it likes; or it has none of these lines, and calls principals p0,
p1, .. and slots s0, s1, .. by their numbers:

    block p1 { s0 := s0 + 1 }

docs/NOTATION.md has the grammar. `muntyzhap help` has an example.

Exit status: 0 done; 1 errors in the text; 2 wrong use, or a file or stream that
failed.
";

/// `muntyzhap help dis`.
pub const DIS: &str = "\
muntyzhap dis FILE [--block NAME=CODE] [--text] [--sheets]
muntyzhap dis FILE --store STORE [--block NAME=CODE] [--text]
muntyzhap dis FILE --programme-only [--principals N] [--slots M] [--text]

Lists sheets: the offset in the file, the offset in the block, the bytes, and what
they say. Damaged sheets are listed as far as they go, with the refusal marked at
its byte. Of a text the sheets that `muntyzhap asm` makes are listed, with the
text's names. `-` is standard input.

    --text               print the text of good sheets instead, which
                         `muntyzhap asm` takes. Sheets have no names: principals
                         are p0, p1, .. and slots s0, s1, ..
    --block NAME=CODE    put code in first, as `muntyzhap run` does, to look at a
                         customer's code before it runs. May be given again
    --store STORE        FILE is a programme alone, for the store in STORE, text
                         or sheet; a text gives its names
    --programme-only     FILE is a programme sheet alone, for a store of N principals
                         and M slots; 32 and 256 if not given. Of a text, its
                         programme alone
    --sheets             take FILE for sheets, whatever it looks like
    --text-input         take FILE for text, whatever it looks like

Exit status: 0 done; 1 a damaged sheet, or errors in a text; 2 wrong use, or a file
or stream that failed.
";

/// `muntyzhap help help`.
pub const HELP: &str = "\
muntyzhap help [COMMAND]

Says how to use the command: run, explain, journal, asm or dis; of all of them
without a name.
";
