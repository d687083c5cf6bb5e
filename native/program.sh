# program.sh: what the commands at the root share, each for the program of its name: it is built where it isn't there, and run. To be
# sourced with the root in `here` and the program's name in `name`.
program=$here/crates/$name/out/$name

# How many crates the program is made of, itself among them.
crates() {
    awk -F: -v name="$name" '
        { sub(/#.*/, "") }
        NF == 2 { needs[$1] = $2 }
        END {
            found[name]; count = 1; names[1] = name
            for (i = 1; i <= count; i++) {
                n = split(needs[names[i]], parts, " ")
                for (k = 1; k <= n; k++)
                    if (parts[k] in needs && !(parts[k] in found)) { found[parts[k]]; names[++count] = parts[k] }
            }
            print count
        }' "$here/crates.txt"
}

# Says how far the proving is, from what rt says line by line: a crate's last line is whether it is proved.
progress() {
    done=0
    crate=$name
    while IFS= read -r line; do
        case $line in
        'crate '*': modules '*)
            crate=${line#crate }
            crate=${crate%%:*}
            ;;
        'logic=proved '*)
            done=$((done + 1))
            echo "$name: $done of $1: $crate proved" >&2
            ;;
        'logic=not-proved'*) echo "$name: $crate is not proved" >&2 ;;
        'rt: FAILED'*) echo "$name: ${line#rt: }" >&2 ;;
        esac
    done
}

# Proves and builds the program where it isn't there: a line for each crate on standard error, all that the prover says in
# target/NAME.log. Ends with 2 where it can't be built. rt also runs what it has built, here on no input.
build() {
    [ ! -x "$program" ] || return 0
    of=$(crates)
    echo "$name: proving and building the program, of $of crates; target/$name.log has the whole log" >&2
    mkdir -p "$here/target"
    { cd "$here/crates/$name" && rt run; } </dev/null 2>&1 >/dev/null | tee "$here/target/$name.log" | progress "$of"
    [ -x "$program" ] || exit 2
}

# Runs the program with these arguments.
run() {
    "$program" "$@"
}

# What the program writes with these arguments. It has no status of its own, but always writes something if it could read; ends with 1
# where it could not.
answer() {
    text=$(
        run "$@"
        echo .
    )
    [ "$text" != . ] || exit 1
    printf '%s' "${text%.}"
}
