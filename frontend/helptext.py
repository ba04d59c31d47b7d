"""What `--help` says of the tool and of each command."""
from __future__ import annotations

from collections.abc import Iterable

from frontend.errors import MEANINGS

ABOUT = """\
A cache whose ways are divided among domains: run traces on the proved model.

Every answer comes from the proved programs in target/bin. Those that a command
needs are built with 'rt run' where they are missing or older than their
sources. This front end sees that what they say is whole, and formats it.
"""

STATUS = "\n".join(("exit status:", *(f"  {status:<4} {meaning}" for status, meaning in MEANINGS.items())))

LIST = """\
Print the listing of a trace, byte for byte what target/bin/lister writes: sets,
ways, rule and number of steps; an answer for each step; and for each domain that
has ways its counts: hits, misses, evicted, written back, flushed, fills, dropped. A
step names a domain or a core; the lister lends records for cores 0 to 31, whose
selectors CS, DS and ES are zero at first, which is domain 0.

A file that is refused as a whole has a listing too, 'refused' and the number: 10
if it has not the length of a trace file, or too many steps or sets; else 1 if its
geometry is outside the limits. It is printed, the reason is told on standard
error, and the exit status is 2, as it is for explain and isolate.

A trace file holds at most 256 sets, and at most 4,096 steps. Calls of the proved
library take up to 4,096 sets.

FILE is a trace file or a trace text; without FILE, or with -, standard input. A
text is known by a name that ends in .txt, or by what it holds, since no trace file
that the cache takes is text. It may have up to 4,194,304 bytes.

--json writes the same as objects, one a line: the trace, each answer with its
fields by name, and the counts of each domain. docs/output.schema.json has the keys.
"""

ASSEMBLE = """\
Turn a trace text into a trace file. A text has three header lines, then one step
a line:

  sets 1                        a number up to 256
  ways 4                        a number that one byte holds
  rule tree                     tree (or tree-plru), nru, lru, or a number
  0 load 0x40                   domain, kind (fetch, load, store, flush), address
  1 policy hit=0-3 fill=0,1     maps are lists of ways; none is the empty map
  1 policy hit=2,3 fill=way3    one way alone is way3: a 3 could be a map too
  1 policy hit=0x3 fill=0x3     a number with 0x or 0b is a mask: bit w is way w
  0 policy arg=0x1_0000_0003    the whole argument of a policy, as a number
  7 kind=9 0x123                any kind by its number, and its argument
  core 3 load 0x40              a core in place of the domain; the same four kinds
  core 3 select cs=0 ds=1 es=1  its selectors, each a domain; in any order
  core 3 select arg=0x100_0000  the whole argument of a select, as a number

CS is the domain of a core's fetches, DS of its loads and flushes, ES of its
stores. Numbers are decimal, 0x or 0b, and '_' may stand between digits. '#' starts
a comment. Whatever a trace file can hold is assembled, also where the cache will
refuse it, such as 3 sets. A trace file holds at most 256 sets, and at most 4,096
steps; calls of the proved library take up to 4,096 sets. Every error is told with
its line and column; then nothing is written. A text may have up to 4,194,304
bytes, 1,024 for each of 4,096 steps. FILE is replaced when all is written; where
that fails, an old FILE is as it was.

A geometry by which the whole file will be refused is warned of on standard error,
and so is each step that can only be refused, whatever came before it: a domain of
16 or more, an unknown kind, a core without a record, a wrong argument. The file is
written all the same, and the exit status is 0.
"""

SHOW = """\
Turn a trace file into a trace text. Assembling that text gives the same file,
byte for byte. A file that is refused by 10, as one of more than 256 sets is, cannot
be shown; the reason is told. Behind a policy's maps stands a comment with both in
hexadecimal.
"""

ISOLATE = """\
Run a trace, and the trace with the accesses and flushes of all other domains
struck out (by target/bin/purger), and show side by side what DOMAIN sees: the
answers to its steps; at the end its line of the listing, its maps, the lines in
its ways and its own replacement data (by target/bin/parts), and the core records;
and whether the policy changes of other domains are accepted. That these are equal
for every trace, and how many ways each of its hit lookups visited (see 'explain
--help') too, is the claim 'The struck-out run where cores switch' of
docs/CLAIMS.md. That the purger's list is the struck-out list is checked, step by
step.

An access or a flush by a core belongs to the domain that the core's selector names
at that moment of the run, as target/bin/stepper says. Where the core is not in the
list it belongs to no domain and is kept, and so is every write of selectors.

--all does it for each domain in use, which is each that a step belongs to, and
prints a line with the verdict for each. -o writes the struck-out trace, so that it
can be run elsewhere, on RTL for instance: as a trace text if the name ends in .txt,
else as a trace file; with --all, one for each domain, whose number stands in the
name in place of {domain}.

--json writes what is compared as objects, one a line, and a verdict for each domain.

FILE is as for list. Exit status: 0 no difference, 1 a difference; the others are
those of 'dipperlock --help'.
"""

EXPLAIN = """\
Tell a trace step by step: the step, and the line of the text that it stands on;
where its address lies: line, set and tag; the answer, as listed and in words; for a
refused step what is to blame, and the fix; and the ways of its set before and after,
as target/bin/stepper gives them: tag, dirty, invalid, the domains whose hit map and
fill map hold the way, and the replacement word, under true LRU also as the order
of the ways. What changed is marked '*'. A policy step shows the sets that it
changed. Maps stand as lists of ways, and beside them in hexadecimal.

--step, --domain, --set, --word and --refused pick steps; each may be given more than
once, and a step is told that fits each kind of option given. What stands at the end
is then left out. --json writes objects, one a line: the trace, each step with all
that is told of it and every set that it changed, and the domains at the end.

Of an access and a flush by a core it is said first through which selector the step
goes, and which domain that names at that moment; the rest is as for a step of that
domain. Of a write of selectors it is said which of them changed, from what to what.

An access and a flush that are not refused also say how many ways the hit lookup
visited: the ways of the domain's hit map, lowest first, up to and including the
one hit, or all of them without a hit. An invalid way of the map is counted.

A miss fills the highest way of the domain's fill map that holds no valid line. If
all of them hold one, the rule's victim is evicted, and under NRU it is said how it
was found: it is the highest way of the fill map whose bit was one or, where none
was, the highest of the fill map, whose bits all become one.

A line that is hit or flushed in a way of the domain's hit map that is not in its
fill map is said to be locked: no miss evicts it.

At the end stand the counts of each domain that has ways, and its lines in and lines
out since it was last removed, such as

  domain 0: fills 3 = evicted 1 + flushed 1 + dropped 0 + held 1

These are the lines that it filled; those that were evicted, that it flushed and that
its own policy changes dropped; and those that it holds, which are now valid in its
hit map, as target/bin/stepper says. That both sides are equal after every trace is
proved.

FILE is as for list. There is colour on a terminal only, unless NO_COLOR is set.
"""

STATE = """\
Show everything that the cache holds after step N, by its place in the listing, or
before it; without either, at the end of the trace: the maps and counts of the
domains and how many lines they hold, the selectors of the cores, and the tables:
for each set its valid and dirty maps, its replacement word and the tag of every way,
also of those that are not valid. Sets side by side whose rows are alike share a line.

All of it comes from target/bin/stepper, run on the steps up to that moment.
--json writes an object a line: the trace, the moment, and every domain, core and
set; docs/output.schema.json has their keys.

FILE is as for list.
"""

CONVERT = """\
Turn an address trace that another tool wrote into trace files for one domain.

  din      Dinero's traditional input: a label, 0 read, 1 write or 2 instruction
           fetch, and an address in hexadecimal, as '0 1f80'; the rest is ignored
  lackey   'valgrind --tool=lackey --trace-mem=yes --log-file=FILE', as ' L 1f80,8';
           M is a load and a store; an access that reaches into further lines of 64
           bytes is a step for each line; valgrind's own messages are left out
  csv      a kind and an address, as 'load,0x1f80'; a first line may name them among
           other columns (kind, type or access; address, addr or vaddr); an address
           is hexadecimal with 0x, else decimal; kinds are load (read, r, l), store
           (write, w, s, rfo), fetch (ifetch, instruction, inst, i) and flush
           (clflush, f)

Blank lines and lines that begin with '#' are left out in all of them. Every other
line that is no access is bad: the first 20 are told, nothing is written, and the
exit status is 2. FILE may be of any length, since it is never held as a whole; a
line with an access has up to 4,096 bytes.

A trace file holds 4,096 steps, so the accesses are cut into windows: a policy
change that gives the domain its maps, and up to 4,095 accesses. Each starts from a
fresh cache. Windows and accesses are counted from 0: window N has accesses 4,095 x
N to 4,095 x N + 4,094. Without --window it is window 0 that is written. {window} in
OUT writes each to its own file, with its number in that place, when all of FILE has
been read; until then they are kept in a temporary file without a name beside OUT.

MAP is as in a trace text: 0,1 or 0-3, one way such as way3, a mask such as 0x3, or
none. All of its ways are below --ways, and those of --fill are in --hit. With
--fill none every miss passes. OUT is a trace text if it ends in .txt, and a comment
then says where it comes from.
"""

PLOT = """\
Draw a run as one picture, in plain SVG. At the top, for each domain that has ways at
some time, its hits, misses, evictions and write-backs as they are counted after each
step; a removal of the domain sets them to zero. Below, on the same steps, who has
which way: a band for each way, hatched by the domain whose hit map holds it, with the
domain's number. Ways that are in a domain's hit map and not in its fill map are
locked; they are lighter, in a dashed outline.

What stands after step p, by its place in the listing, is drawn from p to p + 1. A
line goes through at each accepted policy change, if there are no more than 40; a
cross below marks each refused step, with the refusal's number where there is room.
Each curve is named at its right end, and a legend tells the rest. Nothing is told by
colour alone, so that the picture can be printed in black and white.

All of it comes from target/bin/stepper and target/bin/lister. In long runs, points of
a curve that lie within half a pixel are drawn as one, and owners of a way that have it
for less than four pixels each, one after the other, as so many turns.

FILE is as for list. The picture is 960 pixels wide, and needs no script, font or
other file. It is replaced when all is written; where that fails, an old one is as
it was.
"""

CHECK = """\
Hold the log of an RTL simulation against the listing of the same trace. Of the first
difference, or the first N with --max N, are told: the step, and the log's line; what
is expected and what was found; what the expected answer means; the set of the
address before the step, or for a policy change the policies; and the next three
steps. Where all agree, only target/bin/lister is run.

LOG is a listing, as 'dipperlock list' prints it. Its header line may be left out, and
so may all of its domain lines. With --format, its lines have the form FORM:

  {place}   the step's place in the listing, from 0. Without it the lines are those
            of the steps in their order. Where it is there, any order is fine.
  {word}    the word of the answer, in small letters or large: hit, fill, evict, pass,
            flush, absent, policy, select or refused. Every form has it.
  {fields}  the numbers of the answer, divided by blanks or commas: as many as the
            word has, and in the listing's order, or each with its name, as in
            'way=1 tag=0x0 dirty=1', in any order
  {way}     one number of the answer; so are {tag} {dirty} {dropped} {dirty_dropped}
            {cs} {ds} {es} {number}
  {any}     something without a blank, which is passed over
  {rest}    whatever stands there up to the end of the line; it is passed over

A blank in FORM stands for one or more blanks, {{ and }} for braces, and everything
else for itself. Numbers are decimal, or hexadecimal with 0x, and blanks may stand
before them, as %d prints them. A number that the word does not have, such as the tag
in 'hit way=1 tag=0', is passed over; where x, z or - stands for one that it has, the
line differs. A number that the word has and FORM has not is not compared: how many
lines were compared in part is told. --format may be given more than once, for logs
whose lines have several forms: a line is of the first one that fits.

Blank lines are left out, and so is '#' with all that follows it, at the beginning of
a line or after a blank, unless FORM has it. Every other line that is in no form, or
none of a listing, is bad: the first 5 are told, and the exit status is 2. --skip
passes them over, and says how many there are.

It is a difference if a line has another answer, if a step has no line, or a second
one, and if a line is of a step that the trace has not. With --without-refused a step
that the model refuses needs no line, since RTL is often given legal requests only;
without {place} the lines are then those of the steps that are not refused.

--json writes objects, one a line: the trace, the differences that are told, and the
verdict. FILE is as for list; either FILE or LOG may be -, standard input. LOG may
have up to 16,777,216 bytes. Exit status: 0 all agree, 1 a difference; the others are
those of 'dipperlock --help'.
"""

EXAMPLES = {
    "list": ("./dipperlock list examples/case-a.txt", "./dipperlock list examples/case-a.txt --json"),
    "explain": (
        "./dipperlock explain examples/case-a.txt",
        "./dipperlock explain examples/core-switch.txt --step 6-9",
        "./dipperlock explain examples/refusals.txt --refused",
        "./dipperlock explain examples/balance.txt --domain 0 --word evict --json",
    ),
    "state": ("./dipperlock state examples/case-a.txt --after 5", "./dipperlock state examples/case-a.txt --before 0 --json"),
    "isolate": (
        "./dipperlock isolate examples/case-a.txt 0",
        "./dipperlock isolate examples/core-switch.txt 1 -o core-switch-1.trace",
        "./dipperlock isolate examples/core-switch.txt --all",
    ),
    "check": (
        "./dipperlock check examples/case-a.txt examples/rtl/case-a.log --format 't={any} CACHE step={place} {word} {fields}'",
    ),
    "plot": (
        "./dipperlock plot examples/partition-shift.txt -o partition-shift.svg",
        "./dipperlock plot examples/handover.txt -o handover.svg",
    ),
    "assemble": ("./dipperlock assemble examples/case-a.txt -o case-a.trace", "./dipperlock list case-a.trace"),
    "show": ("./dipperlock assemble examples/case-a.txt -o case-a.trace", "./dipperlock show case-a.trace"),
    "convert": (
        "./dipperlock convert examples/addresses/loop.din --hit 0-3 -o loop.trace",
        "./dipperlock list loop.trace",
        "./dipperlock convert examples/addresses/loop.lackey --rule lru --domain 2 --hit 4-7 -o 'loop{window}.trace'",
    ),
}


def examples(name: str) -> str:
    """Lay out the examples of a command."""
    return _laid_out(EXAMPLES[name])


def first_examples() -> str:
    """Lay out one example of each command."""
    return _laid_out([next(line for line in lines if line.split()[1] == name) for name, lines in EXAMPLES.items()])


def _laid_out(lines: Iterable[str]) -> str:
    """Put a head over lines that can be typed."""
    return "\n  ".join(("example, from the root of the repository:", *lines))
