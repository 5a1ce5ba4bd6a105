#!/usr/bin/env bash
# rt with a line for each crate that it proves: prove.sh LOG RT-COMMAND CRATE, as `rt RT-COMMAND` in the crate's folder, on no input.
# What rt says of functions and theorems goes to the log. Ends with rt's status.
set -uo pipefail
log=$(realpath "$1")
command=$2
crate=$3
# One rt at a time, also where make runs rules side by side: they share the crates' out/.
exec 9> "$(dirname "$log")/prove.lock"
flock 9
cd "$(dirname "$0")/../crates" || exit 2
repository=$(dirname "$PWD")
cd "$crate" || exit 2

# How many the crate and all that it uses are, of those that crates.txt has: they are what is proved.
count=$(awk -v wanted="$crate" '
    { sub(/#.*/, "") }
    /:/ { name = $1; sub(/:.*/, "", name); sub(/^[^:]*:/, ""); uses[name] = $0 }
    END {
        todo = wanted
        while (split(todo, names, " ") > 0) {
            todo = ""
            for (i in names) {
                if (!(names[i] in uses) || names[i] in reached)
                    continue
                reached[names[i]] = 1
                count++
                todo = todo " " uses[names[i]]
            }
        }
        print count
    }' ../../crates.txt)
echo "proving $crate and what it uses, $count crates; what is proved here already is not proved again. From nothing this takes minutes. All of it: ${log#"$repository"/}"

# rt says of each crate that it chose a number of jobs for it, then much of functions and theorems, then whether it is proved.
show_crates() {
    local line name='' began=0
    while IFS= read -r line; do
        if [[ $line =~ ^"rt: chose --jobs "[0-9]+" for "([a-z0-9_]+)$ ]]; then
            name=${BASH_REMATCH[1]}
            began=$SECONDS
        elif [[ -n $name && $line =~ ^"logic=proved functions="([0-9]+) ]]; then
            echo "$name: proved (${BASH_REMATCH[1]} functions, $((SECONDS - began)) s)"
            name=''
        elif [[ -n $name && $line == "logic=not-proved"* ]]; then
            echo "$name: NOT PROVED ($((SECONDS - began)) s)"
            name=''
        fi
    done
}

rt "$command" < /dev/null 2>&1 | tee "$log" | show_crates
status=${PIPESTATUS[0]}
if [ "$status" -ne 0 ]; then
    echo "rt $command of $crate ended with status $status; the end of ${log#"$repository"/}:" >&2
    tail -n 30 "$log" >&2
fi
exit "$status"
