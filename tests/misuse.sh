#!/bin/sh
# Shows that misuses of the crate transport do not compile: a fate that is added once the rig runs, and a step after it has finished.
# A small program is given to the compiler as it should be, and then once with each misuse, which has to be refused at its own line
# and for its own reason. Nothing is proved here and no file of the repository is written: `rt try` compiles in a scratch folder.

root=$(CDPATH= cd "$(dirname "$0")/.." && pwd -P) || exit 1
scratch=$(mktemp -d) || exit 1
trap 'rm -rf "$scratch"' EXIT
trap 'exit 1' HUP INT TERM

# The libraries that a library needs and the library itself, from crates.txt; each goes to the scratch folder, without its proofs.
libraries=
add_library() { # NAME
    case " $libraries " in *" $1 "*) return ;; esac
    for below in $(sed -n "s/#.*//; s/^$1://p" "$root/crates.txt"); do
        add_library "$below"
    done
    libraries="$libraries $1"
    grep "^$1:" "$root/crates.txt" >>"$scratch/crates.txt"
    mkdir -p "$scratch/crates/$1"
    for part in src specs; do
        [ ! -d "$root/crates/$1/$part" ] || cp -R "$root/crates/$1/$part" "$scratch/crates/$1/$part" || exit 1
    done
}

# Compiles the program on standard input; what the compiler says of it goes to the file `said`.
compile() {
    cat >"$scratch/crates/misuse/src/main.rt"
    (cd "$scratch/crates/misuse" && rt try) >"$scratch/said" 2>&1
}

# The program, with a line of the given text while the rig runs, and one once it has finished.
program() { # RUNNING FINISHED
    cat <<PROGRAM
#![tactic(auto)]

use channel::record::{Attempt, Channel};
use link::packet::Packet;
use timer::store::Store;
use trace::fault::RigFault;
use transport::rig::Draft;

fn play<W: Store<Packet>, R: Store<Attempt>, K: Store<u8>>(
    wire: &mut W,
    resend: &mut R,
    keepalive: &mut K,
    table: &mut [Channel],
    fates: &mut [u16],
) -> Result<u32, RigFault> {
    let mut draft = Draft::new(10, 1_000);
    draft.add_fate(fates, 0)?;
    let mut running = match draft.begin(wire, resend, keepalive, table) {
        Ok(running) => running,
        Err(refused) => return Err(refused.fault),
    };
    $1
    let _ = running.step(wire, resend, keepalive, table, fates)?;
    let finished = running.finish(wire);
    $2
    Ok(finished.tick())
}

fn main(rt: HostRuntime) {}
PROGRAM
}

# Says whether the compiler refuses the program with a misuse: by one error, with this code, at the line of the misuse.
status=0
refused() { # WHAT CODE RUNNING FINISHED
    line=$(program "$3" "$4" | grep -n '// misuse$' | cut -d: -f1)
    if program "$3" "$4" | compile; then
        echo "$1: NOT REFUSED"
        status=1
    elif [ "$(grep -c 'error\[' "$scratch/said")" -eq 1 ] && grep -q "^src/main\.rt:$line:[0-9]*: error\[$2\]" "$scratch/said"; then
        echo "$1: refused ($2)"
    else
        echo "$1: refused, but not by $2 at line $line:"
        cat "$scratch/said"
        status=1
    fi
}

mkdir -p "$scratch/crates/misuse/src" || exit 1
add_library transport
echo "misuse: $libraries" >>"$scratch/crates.txt"
if ! program '' '' | compile; then
    echo "the program without a misuse does not compile:"
    cat "$scratch/said"
    exit 1
fi
refused 'a fate added once the rig runs' borrow-e0382 'draft.add_fate(fates, 0)?; // misuse' ''
refused 'a fate added to the running rig itself' unknown-method 'running.add_fate(fates, 0)?; // misuse' ''
refused 'a step after finish' borrow-e0382 '' 'let _ = running.step(wire, resend, keepalive, table, fates)?; // misuse'
refused 'a step of the finished rig' unknown-method '' 'let _ = finished.step(wire, resend, keepalive, table, fates)?; // misuse'
exit $status
