# Cut where it is told, and what was cut once more: the smaller of the two numbers, byte for byte.
# told SIDE N FROM OUT: the first N elements of that side, all of the other.
told() {
    is 0 "$K" cut "--keep-$1" "$2" "$3" "$4"
}

same_folder() { # ONE OTHER
    checks=$((checks + 1))
    diff -r "$1" "$2" > /dev/null || fail "$1 and $2 differ"
}

# front_of FOLDER: each file begins the file of nights.
front_of() {
    local file
    for file in index.list index.store data.list data.store; do
        checks=$((checks + 1))
        cmp -s -n "$(stat -c %s "$1/$file")" "$1/$file" "nights/$file" || fail "$1/$file is no front"
    done
}

# Where the rescue cuts, by hand.
is 0 "$K" cut --keep-index 13 --keep-data=71 nights by_hand
printf 'by_hand  keeps 13 + 71 of 13 + 78 elements; consistent\n' > wanted
same out wanted
same_folder by_hand kept

# Once by each number: as many elements as there are, at most, and the other side whole.
for n in 0 1 4 5 12 13 14; do
    told index $n nights index.$n
    left=$((n < 13 ? n : 13))
    says out "index.$n  keeps $([ $left = 13 ] && echo all || echo "$left + 78 of") 13 + 78 elements; "
    front_of index.$n
    same index.$n/data.list nights/data.list
    same index.$n/data.store nights/data.store
done
for n in 0 3 5 40 71 77 78 18446744073709551615; do
    told data $n nights data.$n
    left=$((n >= 0 && n < 78 ? n : 78))
    is $((n == 71 ? 0 : 1)) "$K" check --json data.$n
    says out "\"elements\":{\"index\":13,\"data\":$left}"
    front_of data.$n
    same data.$n/index.list nights/index.list
    same data.$n/index.store nights/index.store
done

# And twice: each of the numbers and then each.
twice() { # SIDE N..
    local side=$1 m n
    shift
    for m; do
        for n; do
            told "$side" "$n" "$side.$m" again
            same_folder again "$side.$((m < n ? m : n))"
            rm -r again
        done
    done
}

twice index 0 1 4 5 12 13 14
twice data 0 3 5 40 71 77 78
is 0 "$K" cut --keep-index 5 --keep-data 40 nights fewer
is 0 "$K" cut --keep-data 40 index.5 again
same_folder again fewer
rm -r again
is 0 "$K" cut --keep-index 5 data.40 again
same_folder again fewer
rm -r again
front_of fewer

# What is left is said, and nothing else asked of it.
is 0 "$K" cut --keep-data 2 nights headless_data
says out "headless_data  keeps 13 + 2 of 13 + 78 elements; refused 9: the partition does not begin with block, mark, block, mark (data side: data.list)"
is 0 "$K" cut --keep-index 7 bad3 as_it_was
says out "as_it_was  keeps all 7 + 7 elements; refused 3: "
same_folder as_it_was bad3
is 0 "$K" cut --keep-index 0 --keep-data 0 torn nothing_left
says out "nothing_left  keeps 0 + 0 of "
is 1 "$K" check nothing_left

# Lists that are refused are not cut, and numbers that are none are said to be.
is 1 "$K" cut --keep-index 5 bad1 none
says err "klapouzen: bad1: refused 1: the block list is malformed or does not fit its store (data side: data.list with data.store)"
one_line err
is 1 "$K" cut --keep-data 5 bad1i none
says err "(index side: index.list with index.store)"
for word in '' x 5x -1 ' 5' 0x5 18446744073709551616; do
    is 2 "$K" cut --keep-data "$word" nights none
    says err "klapouzen: not a number of elements"
    says err "usage: klapouzen cut [--keep-index N] [--keep-data N] DIR OUT"
done
is 2 "$K" cut nights none --keep-data
says err "an option's value is missing or not wanted: --keep-data"
is 2 "$K" cut --keep-index 5 nights kept
says err "kept: File exists"
absent none
no_drafts
rm -r by_hand index.* data.* fewer headless_data as_it_was nothing_left
