"""The help texts of `run`, `serve`, `reach`, `install`, `uninstall` and `prove`."""
from typing import Dict

RUN = """\
Answers commands from standard input

Usage: rdbg run [OPTIONS]

Options:
      --app <FILE>       The application file [default: the built-in application]
      --moves <COUNT>    How many moves may be done at a time, 1 to 1000000 [default: 100000]
      --history <COUNT>  How many entries the history may have, 2 to 1000000 [default: 100000]
  -h, --help             Print help"""
SERVE = """\
Answers the commands of several sessions on a TCP port

Usage: rdbg serve [OPTIONS] --app <FILE> --port <PORT> --sessions <COUNT>

Options:
      --app <FILE>        The application file
      --port <PORT>       The TCP port, 1 to 65535
      --sessions <COUNT>  How many sessions are served, 1 to 64
      --moves <COUNT>     How many moves may be done at a time, 1 to 1000000 [default: 100000]
      --history <COUNT>   How many entries the history may have, 2 to 1000000 [default: 100000]
  -h, --help              Print help"""
REACH = """\
Search all interleavings for a state that satisfies a goal

Usage: rdbg reach [OPTIONS] <FILE> <GOAL>...
       rdbg reach [OPTIONS] <FILE> --engine

Arguments:
  <FILE>     Model (.fw, .json, or .c with `// rdbg:` lines)
  <GOAL>...  Goal, such as 'asleep and count jobs > 0' (docs/reference/goals.md)

Question:
      --lost              Find the move of the run in --from that made GOAL unreachable
      --doomed            Find a run after which GOAL can no longer be reached
      --from <FILE>       Start after the commands in FILE instead of at boot

What may happen:
      --pace <M..N>       Moves per busy core between two ticks [default: any number]
      --isr <CALLS>       Interrupt that may occur, such as 'send rx 41', with ; between several
                          calls, or the name of an interrupt of the model (repeatable)
                          [default: the interrupts of the model; `--isr none` for none]
      --times <N>         How often the preceding --isr may occur, 1 to 255 or any [default: 1]
      --after <I>         The preceding --isr occurs at most as often as the --isr number I, where
                          0 is the first
      --apart <T>         Minimum ticks between two occurrences of the preceding --isr, 0 to 255
      --surprises <N>     Allow at most N deviations from the default schedule, 0 to 255
      --moves <N>         Consider only runs of at most N moves [default: any length]

Limits:
      --states <N>        Stored states, 1 to 1000000000 [default: 10000000]
      --memory <MIB>      Memory for stored states in MiB, 1 to 1048576 [default: 1024]
      --within <SECONDS>  Stop after this time
      --part <K/N>        Search only part K of N, 1/1 to 255/255 (combine with `rdbg join`)
      --exact             Distinguish states by every field, including the tick and the turn

Output:
  -o <OUT>                Also write the run to OUT, as commands that `rdbg run` replays
      --page <OUT.html>   Write the run, or for --lost the run of --from, as an HTML page
      --report <FILE>     Write the result as SARIF, or as JUnit XML if FILE ends in .xml

Other options:
  -D <NAME=N>             Set constant NAME in a .fw model (repeatable)
      --engine            Answer the lines of standard input instead of one goal (docs/REACHING.md)
  -h, --help              Print help

The first line of the answer is `found`, `never`, `not within N moves`, or `full: ..` if a limit was
reached; with --lost it is `still`, `lost at N`, or `full: ..`. Ctrl-C ends the search with the
answer so far, as --within does.

Exit status: 0 never, not within, or lost at; 1 found, or still; 2 undecided (a limit was reached)
or an error.

Examples:
  rdbg reach jobs.fw 'asleep and count jobs > 0' --pace 20.. --page lost-job.html
  rdbg reach jobs.fw 'reg worker 7 = 2' --lost --from run.commands"""
INSTALL = """\
Install rdbg in a folder

Usage: ./rdbg [--proved|--unproved] install PREFIX

PREFIX is a folder such as /usr/local or ~/.local; it is created if it is missing. These files are
written, in place of files of the same names:

  bin/rdbg                   the command
  lib/rdbg/                  the programs, the tools, and the list of what is installed
  share/rdbg/                README.md, CHANGELOG.md, docs, examples, editors
  share/man/man1/            rdbg(1), rdbg-sh(1) and the page of each other tool
  share/bash-completion/completions/rdbg, share/zsh/site-functions/_rdbg
  share/doc/rdbg/copyright   licences

No folder is replaced as a whole. A file that an older version installed and this one does not have
is removed, unless you changed it. No symbolic link below PREFIX is followed, and a folder below it
that belongs to neither you, nor root, nor the owner of PREFIX is refused.

The programs are the proved ones if ./rdbg prove has built them from the current sources, and
otherwise the unproved ones, which are built if necessary; the last line says which. --proved refuses
to install unproved programs, --unproved installs those.

Exit status: 0 installed; 1 a program could not be built; 2 the command line is wrong, or a file
could not be written. Nothing is installed then.

Example:
  ./rdbg install ~/.local && ~/.local/bin/rdbg --version"""
UNINSTALL = """\
Remove what ./rdbg install put below a folder

Usage: ./rdbg uninstall PREFIX

PREFIX/lib/rdbg/release lists the files that were installed. Each is removed, except those that were
changed since, which are listed. Folders are removed if they are empty and install created them. No
symbolic link below PREFIX is followed. A package is not removed: use `dpkg -r rdbg`.

Exit status: 0 removed; 2 rdbg is not installed there, or a file could not be removed.

Example:
  ./rdbg uninstall ~/.local"""
PROVE = """\
Prove the programs of this checkout and build them

Usage: ./rdbg prove

This takes half an hour or more, and is needed again only after a source has changed; results of
earlier proofs are kept. No other command starts a proof. They run the proved build if there is one,
and otherwise the unproved build, which takes one to three minutes to make. As the first word,
--proved refuses to run an unproved build, and --unproved always runs the unproved one.

Exit status: 0 proved and built; 1 a proof or the build failed."""
OF: Dict[str, str] = {
    "run": RUN,
    "serve": SERVE,
    "reach": REACH,
    "install": INSTALL,
    "uninstall": UNINSTALL,
    "prove": PROVE,
}
