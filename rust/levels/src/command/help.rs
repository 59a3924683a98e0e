//! The help texts.

/// `levels --help`.
pub const ALL: &str = "\
The level archive by hand.

    levels encode    text, one event a line, into event bytes of 32 each
    levels decode    event bytes into text
    levels run       what happens with events, in plain words
    levels draw      a picture of what happens, as SVG

Each reads a file or standard input and writes to standard output or, with -o FILE,
to a file. 'levels COMMAND --help' says more about each.

Events as text, with # for comments:

    OPEN session 0 site 0               BEGIN session 1 partition 0 keys 4 5 6
    CLOSE session 0                     READ session 1 key 4
    CLOCK 0,0 at 100                    END session 1
    PUT session 0 key 4 level 1250      BEAT 0,0
    GET session 1 key 4                 DELIVER from 0 to 1 partition 1

Exit codes: 0 all is well (a refused event is too), 1 a file cannot be read or
written, 2 the command line or the input is wrong, 3 an event was refused and
--strict was asked for.
";

/// `levels encode --help`.
pub const ENCODE: &str = "\
levels encode [-o FILE] [FILE]

Turns text into event bytes, 32 for each event.

    -o, --output FILE    write there; without it to standard output
    -h, --help           this text

FILE is read, or standard input if there is none or it is '-'. One event a line;
docs/RULES.md says what each does:

    OPEN session S site M                     CLOSE session S
    CLOCK M,P at TIME                         BEAT M,P
    PUT session S key K level L               GET session S key K
    PUT session S key K quality Q level L
    BEGIN session S partition P keys K K ..   READ session S key K
    END session S                             DELIVER from M to M partition P

M,P is a node: site M, partition P. Quality is 0 measured (also where it is left
out), 1 corrected, 2 estimated. Names may be in any case, a minus sign - or −. Blank
lines count for nothing, nor does anything from # to the end of a line. A number need
only fit its field's bytes: what is out of range the archive refuses.

What is wrong is told as FILE:LINE:COLUMN, and then nothing is written.

    echo 'PUT session 0 key 4 level 1250' | levels encode | levels decode
    levels encode docs/example.events.txt -o example.events
";

/// `levels decode --help`.
pub const DECODE: &str = "\
levels decode [--lenient] [-o FILE] [FILE]

Turns event bytes into text, one event a line.

    --lenient            what cannot be written as text becomes a comment
    -o, --output FILE    write there; without it to standard output
    -h, --help           this text

FILE is read, or standard input if there is none or it is '-'. An event cannot be
written as text if its code is not 1 to 10, if a field that the code does not use is
not zero, if a page has more than 8 keys, or if bytes are left over at the end.
Without --lenient this is an error with the event's number and byte, and then nothing
is written.

    levels decode vectors/01/document-01.events
";

/// `levels run --help`.
pub const RUN: &str = "\
levels run [--lines] [--strict] [--text | --bytes] [--sites N] [--partitions N]
           [-o FILE] [FILE]

Gives events to an empty archive and says in plain words what happens: what is
refused and why, what waits and for whom, what is shown; at the end how many of each,
and what is still on its way.

    --lines              for scripts: the bench's lines and nothing else, once all is
                         read: place, code, number, source, quality, level, stamp
    --strict             exit code 3 if an event was refused
    --text, --bytes      how the input is written; without it the first 32 bytes
                         decide: text has no zeros, an event has
    --sites N            the archive's number of sites, 1 to 4; without it 4
    --partitions N       the archive's number of partitions, 1 to 4; without it 4
    -o, --output FILE    write there; without it to standard output
    -h, --help           this text

FILE is read, or standard input if there is none or it is '-'. A text may begin with
the line 'sites 2 partitions 3', which says the archive's numbers where the options do
not. Typed by hand, each line is answered at once.

    levels run docs/example.events.txt
    levels run --lines vectors/01/document-01.events
    levels encode docs/example.events.txt | levels run --sites 2 --partitions 2
";

/// `levels draw --help`.
pub const DRAW: &str = "\
levels draw [--text | --bytes] [--sites N] [--partitions N] [-o FILE] [FILE]

Gives events to an empty archive and draws what happens as an SVG: a line for each
session and each node, time from left to right, a mark for each event, an arrow for
each delivery. Marks say in plain words what happened when the pointer is on them.

    --text, --bytes      how the input is written; see levels run --help
    --sites N            the archive's number of sites, 1 to 4; without it 4
    --partitions N       the archive's number of partitions, 1 to 4; without it 4
    -o, --output FILE    write there; without it to standard output
    -h, --help           this text

FILE is read, or standard input if there is none or it is '-'; text may begin with
the line 'sites 2 partitions 3'. At most 2000 events are drawn.

    levels draw docs/example.events.txt -o example.svg
";
