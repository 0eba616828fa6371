//! The pages of `--help`.

use super::arguments::Command;

pub fn page(command: Option<Command>) -> &'static str {
    match command {
        None => ALL,
        Some(Command::List) => LIST,
        Some(Command::Word) => WORD,
        Some(Command::Explain) => EXPLAIN,
        Some(Command::Draw) => DRAW,
        Some(Command::Text) => TEXT,
        Some(Command::Files) => FILES,
    }
}

const ALL: &str = "\
A planner's evening: written as text, run, told and drawn.

  desk list INPUT                  the answer to each step, and the cabinets at the end
  desk word INPUT                  whose word settled the latest recovery
  desk explain INPUT [-o FILE]     what happened, in plain words
  desk draw INPUT [-o FILE]        the evening as a picture, in SVG
  desk text FOLDER [-o FILE]       files of octets to text
  desk files TEXT FOLDER           text to files of octets

INPUT is a text, - for a text on standard input, or a folder with group.dat and
steps.dat or plan.dat, where a missing file counts as empty.

  -o FILE            writes the result to FILE, not to standard output
  --force            lets a file that is there be overwritten
  --steps, --plan    which records of a folder are meant, if both are there
  --help             this page, or behind a command the command's own

Exit code: 0 done, 1 refused (a wrong text, a group file that load refuses, a file
that cannot be read or would be overwritten), 2 wrong use.
The text form is laid out in planner/README.md, and examples/ has evenings in it.
";

const LIST: &str = "\
desk list INPUT [--steps | --plan]

Runs the evening and prints the listing: `step K ANSWER` for each record, then
`cab I STATE VERSION A B W` for each cabinet, or `cab I failed`. In a plan there are
`point K ANSWER` and `return K ANSWER` as well. If load refuses the group file it
prints `load N`, says why on standard error, and the exit code is 1.

INPUT is a text, - for a text on standard input, or a folder with group.dat and
steps.dat or plan.dat. The first 10,000 records are run.
";

const WORD: &str = "\
desk word INPUT [--steps]

Runs the steps and prints `word I R`: cabinet I was the first that went on in the
latest recovery, and R is why: 1 it was coordinator and knew, 2 it was in a save with
pieces unfinished, 3 it was in normal, 4 all had reported unsure. `word 24`: none has
gone on yet. `word 10`: the group has crashed. Of a plan it cannot be asked.

INPUT is a text, - for a text on standard input, or a folder with group.dat and
steps.dat.
";

const EXPLAIN: &str = "\
desk explain INPUT [-o FILE] [--force] [--steps | --plan]

Runs the evening and tells it record by record in plain words.

INPUT is a text, - for a text on standard input, or a folder with group.dat and
steps.dat or plan.dat. With -o it goes to FILE, which is overwritten only with --force.
";

const DRAW: &str = "\
desk draw INPUT [-o FILE] [--force] [--steps | --plan]

Runs the evening and draws it as a picture in SVG, which a browser shows.

INPUT is a text, - for a text on standard input, or a folder with group.dat and
steps.dat or plan.dat. With -o it goes to FILE, which is overwritten only with --force.
";

const TEXT: &str = "\
desk text FOLDER [-o FILE] [--force] [--steps | --plan]

Prints group.dat and steps.dat or plan.dat of FOLDER as text. `desk files` makes the
same octets of it again, whatever they are. A missing file counts as empty. With -o
it goes to FILE, which is overwritten only with --force.
";

const FILES: &str = "\
desk files TEXT FOLDER [--force]

Writes group.dat and steps.dat, or plan.dat for a plan, to FOLDER, which is made if it
is missing. TEXT may be - for standard input. If a line is wrong, or a file is there
already and --force is not, nothing is written.
";
