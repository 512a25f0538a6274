//! The texts of `--help`. LAST stands for the last number that a disc has.

use station::LIMIT;

/// As it is told.
pub fn told(text: &str) -> String {
    text.replace("LAST", &(LIMIT - 1).to_string())
}

pub const PROGRAM: &str = "\
station: a write-once disc kept in a file, with numbered blocks, runs and saves

Usage: station COMMAND DISC ...

  new DISC SECTORS      make a blank disc file
  begin DISC            start a disc that has no save
  mount DISC            find the last finished save and go on from it
  write DISC V          record a block as number V
  store DISC V          record a run of any length, with its entry as number V
  release DISC V        number V is no longer in use
  close DISC            close the packet
  commit DISC           save: record the table
  close-session DISC    save, and close the disc for good
  read DISC V           the block that number V names
  view DISC V           the run whose entry number V names
  look-back DISC K      show the save K before the newest, looking only
  time DISC K           when the save K before the newest was made
  list DISC             every save, newest first
  status DISC           what the disc is ready for, and what is not saved yet
  contents DISC         the numbers in use: block or run, how long, saved or not
  space DISC            where the space went: sectors in use, superseded, ..
  map DISC              the same, drawn sector by sector
  import IMAGE DISC     make a disc file of another deck's raw image
  export DISC IMAGE     give the raw sectors back
  cut J COMMAND ...     what a power cut leaves of a command that records
  explain N             what refusal N means, and what to do
  demo                  a worked example

'station COMMAND --help' tells more. '-V' or '--version' tells the version.

DISC is a file; its ledger is kept beside it in DISC.ledger, and the roles of
its sectors in DISC.roles. Until a commit, only the ledger knows where a written
block lies: a mount, a begin and a look-back leave it out, and say so. With
--back K, read, view, contents, space and map show the save K before the newest
and leave the ledger alone, also beside somebody who records.

Exit status: 0 done; 1 to 20 the refusal's number; 64 wrong command line; 65
the file is no disc, no raw image or no run; 66 a file cannot be read; 69 the
roles are not known; 73 a file cannot be written; 74 the answer cannot be told.
";

pub const NEW: &str = "\
Usage: station new DISC SECTORS

Makes a blank disc file with 1 to 360,000 sectors. Overwrites nothing. Begin the
disc before the first write.
";

pub const BEGIN: &str = "\
Usage: station begin DISC [--anyway]

Starts a disc that has no save: size 0, no packet open. What was written and not
saved is left out, and told. Refused with 6 if the disc has a save; mount it
then.

  --anyway   also where something is recorded, as after a power cut before the
             first save. It stays, and only takes room. Not on another deck's
             disc: the first save would hide its files from every reader
";

pub const MOUNT: &str = "\
Usage: station mount DISC

Finds the last finished save and goes on from it. Tells clean if the save is the
last thing recorded, else dirty; the table's block; the size; and the numbers in
use. What was written after it and not saved is left out, and told as far as the
ledger knows it. A last line says if the disc is closed. Refused with 7 if the
disc has no save. status tells beforehand, and changes nothing.
";

pub const WRITE: &str = "\
Usage: station write DISC V [--from FILE] [--pad]

Records one block of 2048 bytes as number V, from FILE or from standard input,
and tells where. V is a number below the size, or the size itself, LAST at most.
Refused with 13 if V is above LAST, else with 12 if it is above the size. The
block is safe from a power cut only after a commit.

  --from FILE   the block's bytes, 1 at least; - is standard input
  --pad         fill up a shorter block with zeros
";

pub const STORE: &str = "\
Usage: station store DISC V [--from FILE]

Records a run of any length, from FILE or from standard input: its bytes in
blocks without a number, one behind the other, and behind them its entry, which
names them, as number V. Tells how long the run is, and where the entry lies.
view shows the run again. Refused with 14 if not all of it fits, with 13 or 12
if V is too high, as for write, and with 15 if one of its blocks would pass for
a save or for a closing; then nothing is recorded. The run is safe from a power
cut only after a commit.

  --from FILE   the run's bytes, 1 at least; - is standard input
";

pub const RELEASE: &str = "\
Usage: station release DISC V

Number V is no longer in use. It may be written again. The space of its block
does not come back.
";

pub const CLOSE: &str = "\
Usage: station close DISC

Closes the packet. Nothing is recorded. The next write or commit first records
seven link sectors. The disc stays open: close-session closes it.
";

pub const COMMIT: &str = "\
Usage: station commit DISC [--at TIME | --now]

Saves: records the table sector, and tells its block, how many numbers are in
use, and which of them are new since the last save. From then on a mount shows
this save, whatever is cut later. A table of more than 458 numbers has 1 to 8
own sectors; those that changed since the last save are recorded before it, one
at least. With a time, the save carries it from then on, and it is told too.
Refused with 16 if no save can carry it: it is a real date from 1970 to 2099, up
to 23:59:59, in a zone of up to 24:00.

  --at TIME   the time on a clock and its zone, as 2026-11-15T14:05+01:00. The
              zone is how far the clock is ahead of UTC (+) or behind it (-);
              Z is UTC itself. Without a zone, the save says that it was not
              given. Seconds may follow the minutes, with up to six decimals
  --now       the time on this machine's clock, and the zone that it is set to
";

pub const CLOSE_SESSION: &str = "\
Usage: station close-session DISC --main LENGTH,LOCATION
                             --reserve LENGTH,LOCATION --start N

Saves, and closes the disc: plain CD-ROM drives read only closed ones. After
this nothing can be recorded on it any more. The command says so before it
records, and does not ask; try it on a copy first. Before the table it records
a pointer to the two extents below and 255 sectors of zeros, the last of which
give way to own sectors of the table, and it tells where pointer and table
stand. Refused with 17 if the disc is closed already, with 18 if N is above
400000, and with 14 if there is no room: a closing takes 257 sectors, and 7 more
where links come first.

  --main LENGTH,LOCATION      the main Volume Descriptor Sequence: its length
                              in bytes, and its first sector on the disc
  --reserve LENGTH,LOCATION   the reserve one, in the same way
  --start N                   the partition's first sector on the disc

Who prepared the disc knows all of them; of a raw image udfinfo tells them.
";

pub const READ: &str = "\
Usage: station read DISC V [--back K] [--to FILE [--replace]]

The 2048 bytes of number V, to FILE or to standard output. After a look-back
they are those of the save that it shows.

  --back K    of the save K before the newest; 0 is the newest. The ledger is
              neither needed nor changed
  --to FILE   a new file for the bytes; - is standard output. A pipe or a device
              is written to
  --replace   FILE may be there, and is replaced in one step; never a disc, nor
              a ledger or roles
";

pub const VIEW: &str = "\
Usage: station view DISC V [--back K] [--offset N] [--length N]
                    [--to FILE [--replace]]

The bytes of the run whose entry number V names, to FILE or to standard output.
After a look-back they are those of the save that it shows. Refused with 19 if
number V is a block of its own, and no run's entry, and with 20 if the offset is
above the run's length.

  --back K     of the save K before the newest; 0 is the newest. The ledger is
               neither needed nor changed
  --offset N   leave out the first N bytes
  --length N   give at most N bytes; without it all, to the run's end
  --to FILE    a new file for the bytes; - is standard output. A pipe or a
               device is written to
  --replace    FILE may be there, and is replaced in one step; never a disc, nor
               a ledger or roles
";

pub const LOOK_BACK: &str = "\
Usage: station look-back DISC K

Shows the save K before the newest; K 0 is the newest. Then read and view show
that save's blocks and runs, and nothing can be recorded until a mount. What was
written and not saved is left out, and told. To look without this, give read,
view, contents, space or map the option --back.
";

pub const TIME: &str = "\
Usage: station time DISC K

When the save K before the newest was made; K 0 is the newest. Tells the time on
the clock that it carries, with the clock's zone, and the same in UTC, in whole
minutes. A time whose zone was not given is taken as UTC. Refused with 16 if the
save carries no time. Changes nothing.
";

pub const LIST: &str = "\
Usage: station list DISC [--times] [--long]

Every save, newest first: steps back, the table's block, the size, and how many
numbers are in use. The last line is clean, dirty, or broken if the saves
before cannot be reached (exit status 8). If a mount is refused, only 'refused'
and the number. If the disc is closed, standard error says so. Changes nothing.

  --times   also when each save was made: on the clock that it carries, and in
            UTC; 'no zone' where none was given, 'no time' where it has none
  --long    also the own sectors of each save's table, which one of more than
            458 numbers has: how many, how many of them were recorded with the
            save, how many named again since they had not changed, and their
            blocks
";

pub const STATUS: &str = "\
Usage: station status DISC

How the disc stands: not begun, not mounted, open, looking only or closed; its
size and the numbers in use; which of them are not saved yet; the newest save
and its time; and how much room is left, in blocks and in bytes of one run.
Changes nothing.
";

pub const CONTENTS: &str = "\
Usage: station contents DISC [--back K]

Every number in use: its block, whether it is a block or a run, how many bytes
it has, and whether a save names it. Changes nothing.

  --back K   of the save K before the newest; 0 is the newest. The ledger is
             neither needed nor changed
";

pub const SPACE: &str = "\
Usage: station space DISC [--back K]

Where the space went: how many sectors have each role, their share of the disc,
and in a sentence what is in use and what took the most of the rest. Changes
nothing.

  in use             a number names the block
  superseded         no number names it: written again or released; after a
                     mount, also what the save does not name, and parts of runs
  without a number   parts of runs, and those of a closing before its table,
                     recorded since the last begin, mount or look-back
  table              one for each save, and the own sectors of one with more
                     than 458 numbers
  link               seven where recording goes on after a close or a mount
  unreadable         left by a power cut, or damaged
  blank              not recorded yet

Of a run only the entry has a number. Its other sectors, its parts, count as
superseded or without a number also while the run is in use; the sentence then
tells how many they are.

  --back K   as the save K before the newest has it, worked out anew; 0 is the
             newest. Neither ledger nor roles are needed or changed

The roles are kept beside the disc, in DISC.roles. They are not known (exit
status 69) after a power cut and where that file is missing or not up to date:
begin, mount and look-back work them out anew.
";

pub const MAP: &str = "\
Usage: station map DISC [--back K] [--svg FILE]

The disc drawn from block 0 on, a letter for each sector, or on a large disc for
as many as it says. In colours on a terminal, else, and where NO_COLOR is set,
in letters alone. Changes nothing of the disc.

  u  in use              T  table
  s  superseded          l  link
  w  without a number    x  unreadable
  p  part of a run       .  blank

'station space --help' tells what these roles mean; p is a sector of a run in
use, which its role counts as superseded or without a number.

  --back K     as the save K before the newest has it; 0 is the newest
  --svg FILE   make a picture in FILE instead. A browser shows it in a window of
               any size, tells block, role and number of a square under the
               pointer, and prints it on A3. Overwrites nothing; - is standard
               output
";

pub const IMPORT: &str = "\
Usage: station import IMAGE DISC --start N [--sectors M]

Makes a disc file of a raw image of another deck's disc: 2048 bytes a sector,
all of them recorded data. The disc's block 0 is the image's sector N; what
stands before it, the volume's front, is left out. Overwrites nothing. The disc
has no ledger: mount it. Tells the newest save that a mount will find, or if
there is none what the image seems to be, and what to do.

  --start N     the partition's first block, as udfinfo tells it
  --sectors M   the disc's size in sectors, 360,000 at most: those behind the
                image's are blank. Without it there is no room to record
";

pub const EXPORT: &str = "\
Usage: station export DISC IMAGE

Gives the raw sectors back: every recorded one, 2048 bytes each, in order. The
image ends with the last of them. Link and unreadable sectors have no data:
zeros stand for their bytes. Overwrites nothing, and changes nothing of the
disc. If IMAGE is -, the sectors go to standard output, and how many there are
is told on standard error.
";

pub const CUT: &str = "\
Usage: station cut J [--torn] write DISC V [--from FILE] [--pad]
       station cut J [--torn] store DISC V [--from FILE]
       station cut J [--torn] commit DISC [--at TIME | --now]
       station cut J [--torn] close-session DISC --main LENGTH,LOCATION
                      --reserve LENGTH,LOCATION --start N

What a power cut leaves of this write, store, commit or closing: the first J of
the sectors that it would record, and neither ledger nor roles. Changes the disc
file; try it on a copy. A command that would be refused is refused, and then
nothing is changed.

  --torn   leave the next sector unreadable instead of blank
";

pub const EXPLAIN: &str = "\
Usage: station explain N

What refusal N means: the rule in the documents' own words, who causes it, and
what to do.
";

pub const DEMO: &str = "\
Usage: station demo [--keep FOLDER]

Records a disc of 31 sectors, cuts the power inside a commit, and shows that the
last finished save is there; then a run longer than a block on another disc, and
where that one's space went.
Each step as an operator types it, with its output.

  --keep FOLDER   work in FOLDER and leave the files there
";
