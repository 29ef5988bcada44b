//! What `--help` prints. `danumrikal.1` says the same at length.

pub const VERSION: &str = concat!(
    "danumrikal ",
    env!("CARGO_PKG_VERSION"),
    ", for pools of editions 1 and 2\n"
);

pub const ALL: &str = "\
usage: danumrikal COMMAND ..

Looks at a pool in a file, changes it and mends it, by the proved calls.

  check FILE                     is it sound? else the first broken rule
  report FILE                    what it holds, line by line or as JSON
  map FILE                       a picture, in the terminal or as SVG
  format FILE --pages N          a new pool
  take FILE SIZE                 takes a block
  give FILE OFFSET..             gives blocks back, all or none
  convert IN -o OUT              a pool of edition 1 as one of edition 2
  mend DAMAGED -o OUT            a sound copy of a damaged pool
  accept DAMAGED MENDED          may the copy take its place?
  script [FILE]                  serves a script on a pool in memory

'danumrikal COMMAND --help' says more, 'man danumrikal' all of it.

Files are for pools at rest: a program that has mapped the file goes on with the
old one. Exit status: 0 done, 1 refused by the pool, 2 wrong usage, 3 input or
output.
";

pub const CHECK: &str = "\
usage: danumrikal check FILE

Prints 'sound: N pages, edition E' and ends with 0; or prints the first rule that
the pool breaks, where, what the rule asks for and how to go on, and ends with 1.
";

pub const REPORT: &str = "\
usage: danumrikal report FILE [--blocks] [--json]

Prints pages, classes with their counts, free and taken runs by rising page.

  --blocks    every live block too, by rising offset
  --json      the same facts as one JSON object; of a pool that is not sound, the
              first broken rule
";

pub const MAP: &str = "\
usage: danumrikal map FILE [--color WHEN] [--width N]
       danumrikal map FILE --svg OUT [--force]

Draws the pool, a page a cell: free runs, taken runs with their length, pages of
chunks by how full they are. A broken pool is drawn as its records stand, with the
place marked, and the command ends with 1.

  --color WHEN    auto (on a terminal, unless NO_COLOR is set), always or never
  --width N       columns to draw in, else the terminal's, else 80
  --svg OUT       writes a sheet to read and print instead
  --force         OUT may exist
";

pub const FORMAT: &str = "\
usage: danumrikal format FILE --pages N [--edition E] [--force]

Makes a file that is a pool of N pages, 1 to 4096, all free.

  --edition E    1, or 2, which keeps peaks; else 2
  --force        FILE may exist, and all that it holds is lost
";

pub const TAKE: &str = "\
usage: danumrikal take FILE SIZE

Takes a block of SIZE bytes or more and prints 'at' and its offset. A take that is
refused leaves the file as it is.
";

pub const GIVE: &str = "\
usage: danumrikal give FILE OFFSET..

Gives back the blocks that begin at these offsets, and prints 'back' and the bytes
of each; or none of them, where one is refused.
";

pub const CONVERT: &str = "\
usage: danumrikal convert IN -o OUT [--force]

Makes of IN, a sound pool of edition 1, a pool of edition 2 in OUT. Blocks keep
their offsets and bytes, classes their counts; a peak begins with the chunks in
use. IN stays.

  --force    OUT may exist
";

pub const MEND: &str = "\
usage: danumrikal mend DAMAGED -o OUT [--force]

Makes a sound copy of a pool whose links or counts were lost. Blocks keep their
offsets and bytes. DAMAGED stays.

  --force    OUT may exist
";

pub const ACCEPT: &str = "\
usage: danumrikal accept DAMAGED MENDED

Whether MENDED, whoever made it, is sound and holds the blocks and bytes of
DAMAGED: prints 'accepted', or tells the refusal and ends with 1. Changes nothing.
";

pub const SCRIPT: &str = "\
usage: danumrikal script [FILE]

Serves lines of 'take N' and 'give N' from FILE or standard input on a fresh pool
of 12 pages in memory, and prints an answer for each. A refused line prints 'no'
and its number, and the next is served.
";
