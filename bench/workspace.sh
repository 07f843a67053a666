# Sourced by the benchmarks of crates: a workspace of their own in $work, which goes away at the end.
here=$(cd "$(dirname "$0")" && pwd)
work=$(mktemp -d)
trap 'rm -rf "$work"' EXIT

# Copies the crates of these names, and all that they stand on.
take_crates() {
    tac "$here/../crates.txt" | awk -v wanted="$*" '
        BEGIN { for (count = split(wanted, names, " "); count > 0; count--) taken[names[count]] = 1 }
        /^#/ || !/:/ { next }
        { name = $1; sub(/:.*/, "", name) }
        name in taken { print; for (i = 2; i <= NF; i++) taken[$i] = 1 }
    ' >"$work/crates.txt"
    for name in $(sed 's/[: ].*//' "$work/crates.txt"); do
        mkdir -p "$work/crates/$name"
        for part in src specs proofs; do
            if [ -d "$here/../crates/$name/$part" ]; then cp -R "$here/../crates/$name/$part" "$work/crates/$name/"; fi
        done
    done
}

# Adds a program of this name that stands on these crates, with what is on the input as its main file.
add_program() {
    mkdir -p "$work/crates/$1/src"
    cat >"$work/crates/$1/src/main.rt"
    echo "$1: $2" >>"$work/crates.txt"
}

# A module of what a program is asked.
asked() {
    cat <<'PART'
//! What the program of a benchmark is asked: its words and its input.
use std::vec::IntoIter;
use std::{env, io};

/// The words behind the program's own.
pub fn words(rt: &HostRuntime) -> io::Result<IntoIter<String>> {
    let mut words = env::args(rt)?.into_iter();
    let _program = words.next();
    Ok(words)
}

/// The number that a word writes, or this one where it writes none.
pub fn number(word: Option<String>, otherwise: u32) -> u32 {
    word.and_then(|word| word.parse::<u32>().ok())
        .unwrap_or(otherwise)
}

/// All that is on the input.
pub fn input(rt: &HostRuntime) -> io::Result<Vec<u8>> {
    let mut bytes = Vec::new(rt.alloc());
    let mut input = rt.stdin();
    io::Read::read_to_end(&mut input, &mut bytes)?;
    Ok(bytes)
}
PART
}

# A module of the target that a program scrapes, which is that of the tests.
one_target() { cat "$here/../crates/wire_tests/src/calls/one_target.rt"; }

# A module of what is said of a page that has a fault.
told() {
    cat <<'PART'
//! What is said of a page that has a fault.
use page_model::PageFault;
use std::io;

/// Says the fault.
pub fn tell(rt: &HostRuntime, fault: PageFault) -> io::Result<()> {
    match fault {
        PageFault::Refused { line, rule } => println!(rt; "line {line} {}", rule.name()),
        PageFault::Memory => println!(rt; "memory"),
    }
}
PART
}

# Adds modules to the program of this name.
add_parts() {
    program=$1
    shift
    for part in "$@"; do "$part" >"$work/crates/$program/src/$part.rt"; done
}

# Builds the program of this name by a run with the further words.
build_program() {
    built=$1
    shift
    (cd "$work/crates/$built" && rt run -- "$@" </dev/null >"$work/log" 2>&1) || { cat "$work/log"; exit 1; }
    cp "$work/crates/$built/out/$built" "$work/proved"
}

# A page like a node exporter's, of so many samples: families of 1 to 128 samples, 5 labels a sample on average.
node_page() {
    awk -v most="$1" '
    function value(n) {
        if (n % 5 == 0) return sprintf("%d.%02d", n * 7919 % 1000003, n % 100)
        if (n % 5 == 1) return sprintf("%d", n * 104729 % 16777213)
        if (n % 5 == 2) return sprintf("1.%06de+09", n * 7919 % 999983 + 1)
        if (n % 5 == 3) return n % 3 == 0 ? "0" : sprintf("%d%06d", n % 9973, n % 1000003)
        return sprintf("%d.%06de-05", 1 + n % 9, n * 611953 % 1000000)
    }
    function labels(sort, n) {
        node = sprintf("node=\"worker-%03d.example.org\"", n % 251)
        if (sort == 1) return sprintf("{core=\"%d\",cpu=\"%d\",mode=\"%s\",%s,socket=\"%d\"}", n % 8, n, modes[n % 6 + 1], node, n % 2)
        if (sort == 2) return sprintf("{device=\"/dev/mapper/vg0-data%d\",device_error=\"\",fstype=\"ext4\",mountpoint=\"%s%d\",%s}", n, n % 10 ? "/var/lib/data/" : "C:\\\\data\\\\", n, node)
        if (sort == 3) return sprintf("{adminstate=\"up\",device=\"eth%d\",duplex=\"full\",%s,operstate=\"up\",speed=\"10000\"}", n, node)
        if (sort == 4) return sprintf("{name=\"storage-volume-%d.service\",state=\"%s\",type=\"notify\",%s}", n, states[n % 4 + 1], node)
        return sprintf("{code=\"OK\",handler=\"/api/v1/volumes/%d\",method=\"GET\",pod=\"gateway-7c9f%d\",%s,zone=\"eu-west-1%s\"}", n, n % 17, node, n % 2 ? "a" : "b")
    }
    BEGIN {
        split("idle user system iowait nice irq", modes, " ")
        split("active inactive failed activating", states, " ")
        split("1 8 128 16 64 48", sizes, " ")
        split("goroutines cpu_seconds filesystem_avail_bytes network_receive_bytes systemd_unit_state http_requests", stems, " ")
        for (family = 0; samples < most; family++) {
            sort = family % 6
            name = sprintf("node_%s_%d%s", stems[sort + 1], family, sort % 2 ? "_total" : "")
            printf "# HELP %s Readings of %s, by \\\\proc\\\\%d.\n# TYPE %s %s\n", name, stems[sort + 1], family, name, sort % 2 ? "counter" : "gauge"
            for (i = 0; i < sizes[sort + 1] && samples < most; i++)
                printf "%s%s %s\n", name, sort ? labels(sort, i) : "", value(samples++)
        }
    }'
}
