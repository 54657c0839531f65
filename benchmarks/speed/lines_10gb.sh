#!/bin/sh
# Takes all lines of a trace of 10 GB, or of as many as are given, in pieces of 4,096 lines, and prints seconds and
# peak memory, which must stay below 64 MiB. No file is read: a program that stands below makes the bytes as they are
# read, and takes the lines by trace_lines over a shelf of outside_ports. It is proved and built in a folder of its
# own, beside copies of the crates that it stands on, since it is no part of the judge.
set -eu
size=$((${1:-10} * 1000000000))
here=$(cd "$(dirname "$0")" && pwd)
folder=$(mktemp -d)
trap 'rm -rf "$folder"' EXIT
mkdir -p "$folder/crates/lines_10gb/src"
for crate in outside_ports line_text trace_lines; do
    mkdir "$folder/crates/$crate"
    cp -r "$here/../../crates/$crate/src" "$here/../../crates/$crate/specs" "$here/../../crates/$crate/proofs" \
        "$folder/crates/$crate/"
    grep "^$crate:" "$here/../../crates.txt" >>"$folder/crates.txt"
done
echo 'lines_10gb: outside_ports trace_lines' >>"$folder/crates.txt"
cat >"$folder/crates/lines_10gb/src/made_shelf.rt" <<'EOS'
//! A file that is made as it is read.

ghost use Rattle.std.specs.Prelude.{◌≡◌, None};

use outside_ports::{Failed, Shelf};

/// What the file repeats: a line as one of a trace.
const LINE: &[u8; 64] = b"12345678,0x00000013,0x80000000,10,0x00000000000000aa,0x80000004\n";

/// A shelf of one file of so many bytes, under every name. It tells no content, and no read fails.
#[derive(Drop)]
pub struct MadeShelf {
    pub size: u64,
}

impl MadeShelf {
    /// A file of this size.
    pub fn new(size: u64) -> Self
        ensures { result.size ≡ size }
    {
        MadeShelf { size }
    }
}

impl Shelf for MadeShelf {
    ghost told = { λ _. None };

    ghost faults = { λ _. 0 };

    ghost misses = { λ _. 0 };

    fn read(&mut self, _name: &str, at: u64, buf: &mut [u8]) -> Result<usize, Failed> {
        let left = self.size.saturating_sub(at);
        let count = left.min(buf.len() as u64) as usize;
        let mut place = at;
        for byte in &mut buf[..count] {
            *byte = LINE[(place % 64) as usize];
            place = place.wrapping_add(1);
        }
        Ok(count)
    }
}
EOS
cat >"$folder/crates/lines_10gb/src/main.rt" <<'EOS'
//! Takes all lines of a file that is made as it is read, by pieces of so many lines as the judge
//! takes of a trace, and prints how many lines and bytes there were, and what followed them. The one
//! word is the size of the file in bytes. The lines are those of trace_lines, over a shelf of
//! outside_ports; no standard is followed here.
#![tactic(auto)]

mod made_shelf;

use made_shelf::MadeShelf;
use outside_ports::Shelf;
use std::alloc::Global;
use std::env;
use std::process::ExitCode;
use std::rt::Env;
use trace_lines::{Ending, LineError, LineTaker, Piece};

/// The lines of a piece.
const PIECE: usize = 4096;

/// More than any file has.
const MOST: u64 = 1 << 61;

/// What was taken.
#[derive(Clone, Copy)]
struct Taken {
    lines: u64,
    /// The bytes of the lines, each with its line feed.
    bytes: u64,
}

impl Taken {
    /// Counts a piece.
    fn add(&mut self, piece: &Piece) {
        self.lines = self.lines.saturating_add(piece.lines.len() as u64);
        self.bytes = self.bytes.saturating_add(piece.lines.text().len() as u64);
    }
}

/// Takes all lines of a file, and says what follows them.
fn take_all<H: Shelf>(alloc: Global, shelf: &mut H) -> Result<(Taken, Ending), LineError> {
    let mut taken = Taken { lines: 0, bytes: 0 };
    let mut taker = LineTaker::open(alloc, "made", MOST)?;
    for _ in 0..u64::MAX {
        let (piece, rest) = taker.next_lines(shelf, PIECE)?;
        taken.add(&piece);
        if piece.ending != Ending::More {
            return Ok((taken, piece.ending));
        }
        taker = rest;
    }
    Ok((taken, Ending::More))
}

/// The size that the words of the command line ask for.
fn asked_size<R: Env + AllocGlobal>(rt: &R) -> Option<u64> {
    let mut words = env::args(rt).ok()?;
    let _program = words.next();
    words.next()?.as_str().parse::<u64>().ok()
}

fn main(rt: HostRuntime) -> ExitCode {
    let Some(size) = asked_size(&rt) else {
        return ExitCode::from(2);
    };
    let mut shelf = MadeShelf::new(size);
    match take_all(rt.alloc(), &mut shelf) {
        Err(_) => ExitCode::from(1),
        Ok((Taken { lines, bytes }, ending)) => {
            match println!(rt; "{lines} lines, {bytes} bytes, then {ending:?}") {
                Ok(()) => ExitCode::SUCCESS,
                Err(_) => ExitCode::from(1),
            }
        }
    }
}
EOS
# `rt run` proves, links and runs the program, which refuses the empty list of words.
(cd "$folder/crates/lines_10gb" && rt run) </dev/null >"$folder/log" 2>&1 || true
program=$folder/crates/lines_10gb/out/lines_10gb
[ -x "$program" ] || { cat "$folder/log" >&2; exit 70; }
# Each line has 64 bytes with its line feed.
python3 "$here/measure.py" --expect "$((size / 64)) lines, $size bytes, then End" --below 64 "$program" "$size"
