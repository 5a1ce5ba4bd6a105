#!/usr/bin/env bash
# A month's delivery through the program: 1,000 cartridges on disk. month.sh TARGET
set -eu
cd "$(dirname "$0")/.."
T=$1
folder=$T/bench/month
rm -rf "$folder"
mkdir -p "$folder"
kinds=(fresh torn nights defect sparse)
for ((i = 0; i < 1000; i++)); do
    kind=${kinds[i % 5]}
    if [ $i -lt 5 ]; then
        "$T"/make_sample "$kind" "$folder/$i"
    else
        cp -r "$folder/$((i % 5))" "$folder/$i"
    fi
done
echo "1,000 cartridges through klapouzen check, $(du -sh --apparent-size "$folder" | cut -f 1) on disk:"
TIMEFORMAT='%R s, of which %U s in the program and %S s in the kernel'
time "$T"/klapouzen check "$folder"/* | tail -n 1
rm -rf "$folder"
