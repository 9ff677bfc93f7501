//! What the command says of itself.

/// The command.
pub const COMMAND: &str = "\
tarnflaw: changes of a controller's timetable, by the proved library

  tarnflaw run [FILE]               put requests to a controller, a line for each
  tarnflaw show [FILE]              draw the slots around each change
  tarnflaw encode [FILE]            a text of requests into frames
  tarnflaw decode [FILE]            frames into a text
  tarnflaw request WORDS            one request's record from its figures
  tarnflaw answer [FILE]            archived answers as text
  tarnflaw owner FILE SLOT..        who has a slot, after a file of requests
  tarnflaw standing FILE ID SLOT..  how a partition stands, after a file of requests
  tarnflaw help [TOPIC]             a verb, or: text, numbers

Each verb has --help. FILE is a text of requests or frames, told apart by the first byte;
- is standard input, and so is no FILE. tarnflaw --version tells the library's version.
Exit status: 0 done; 1 a request was refused or a record not read; 2 wrong usage or
unreadable input.

Example: tarnflaw run --explain examples/a-and-b.txt
";

/// The text of requests.
pub const TEXT: &str = "\
A text of requests has these lines. Words are one or more blanks apart, # begins a comment,
each line ends with a line feed alone, and empty lines are skipped.

  request slot 6 T 1      a request: its slot, and T, the longest transition allowed
  list 0 k 2 R 1          after its request, a partition that it lists: id, k (its period
                          is 2^k) and bound R
  list 1 k 2              the same by a short field: R as before
  bytes 01 00 08 00       instead of these: a record's bytes as they are, two hex digits each
  rest 40 00              last of all: bytes outside any frame

The slot is 0 to 18446744073709551615, and T, id, k and R are 0 to 255, so that values can be
tried that are refused. A record has at most 65535 bytes.
";

/// `run`.
pub const RUN: &str = "\
tarnflaw run [--explain] [--answers FILE] [FILE]

Puts the requests of FILE, one after the other, to a controller that starts empty, and prints
for each: ordinal, number (0: accepted), place, tries, transition length. The lines are those
of the program changer; where no whole frame is left, the last one is 'bad frame'.

  --explain        behind each line, what was accepted, or why not, where, and what can be done
  --answers FILE   write the answer records of accepted requests to FILE, a line of bytes each;
                   tarnflaw answer reads them

Example: tarnflaw run --explain examples/a-and-b.txt
";

/// `show`.
pub const SHOW: &str = "\
tarnflaw show [--svg FILE] [--only N] [--before N] [--after N] [--columns N] [--name ID=NAME].. [FILE]

Draws the slots around each change that is accepted, slot by slot: who has the slot, and each
partition's shortfall at its start, in 256ths of a slot, against its bound 256 R. Before the
request slot the timetable in force there is asked, and from it on the new one.

  --svg FILE       draw into an SVG file, and not in the terminal; - is standard output
  --only N         draw only what request N brought, counted from 1
  --before N       slots before the request slot (at most 64; if not given, 6)
  --after N        slots from the base on (1 to 256; if not given, 8)
  --columns N      columns of the terminal (60 or more; if not given, COLUMNS or 80)
  --name ID=NAME   what the partition with this id is called

Example: tarnflaw show --name '0=pump loop' --name 1=detector --name 2=valve examples/a-and-b.txt
";

/// `encode`.
pub const ENCODE: &str = "\
tarnflaw encode [FILE]

Writes the frames that a text of requests means. A wrong line is named, and nothing is written.
tarnflaw help text has the form.

Example: tarnflaw encode examples/a-and-b.txt > target/a-and-b.frames
";

/// `decode`.
pub const DECODE: &str = "\
tarnflaw decode [FILE]

Writes frames as a text, which encodes to the same bytes, whatever they are.

Example: tarnflaw decode examples/a-and-b.frames
";

/// `request`.
pub const REQUEST: &str = "\
tarnflaw request [--frame | --raw] slot N T N [list N k N R N]..

Writes one request's record from its figures, by the library's writer, as bytes in hex. Each
partition has its R: the writer writes no short field.

  --frame   write a frame with the record, as bytes and not as text
  --raw     write the record, as bytes and not as text

Example: tarnflaw request slot 6 T 1 list 0 k 2 R 1 list 1 k 2 R 1 list 2 k 1 R 2
";

/// `answer`.
pub const ANSWER: &str = "\
tarnflaw answer [FILE]

Tells what archived answer records say, by the library's reader. FILE has a line of bytes in
hex for each record (the word bytes may stand before them, and # begins a comment), or frames
with a record in each, or one record as it is, told apart by the first byte.

Example: echo 10 00 01 01 11 00 01 01 12 00 02 00 00 | tarnflaw answer
";

/// `owner`.
pub const OWNER: &str = "\
tarnflaw owner FILE SLOT..

Puts the requests of FILE to a controller that starts empty, and tells who has each SLOT by the
timetable that was accepted last. A SLOT is a number, or a range: 6..14.

Example: tarnflaw owner examples/a-and-b.txt 6..10
";

/// `standing`.
pub const STANDING: &str = "\
tarnflaw standing FILE ID SLOT..

Puts the requests of FILE to a controller that starts empty, and tells how partition ID stands
at the start of each SLOT by the timetable that was accepted last: its shortfall, in 256ths of a
slot, and the slices it has had since the request slot. A SLOT is a number, or a range: 6..14.

Example: tarnflaw standing examples/a-and-b.txt 1 6..10
";
