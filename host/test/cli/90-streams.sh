# Pipes and terminals.
for words in "check fresh" "why behind" "compare fresh nights" "compare --json fresh nights"; do
    is 2 bash -c "'$K' $words > /dev/full"
    says err "standard output: No space left on device"
    is 2 bash -c "'$K' $words >&-"
    says err "standard output: Bad file descriptor"
done
"$K" extract sparse 1 2> err | head -c 10 > out
checks=$((checks + 1))
[ "$(stat -c %s out)" -eq 10 ] && [ ! -s err ] || fail "a closed pipe is not quiet"
is 2 bash -c "trap '' PIPE; '$K' extract nights 2 | true; exit \${PIPESTATUS[0]}"
says err "Broken pipe"
if command -v script > /dev/null; then
    script -qec "'$K' check fresh fresh fresh fresh fresh fresh fresh fresh" /dev/null > out < /dev/null
    says out $'\033[32mconsistent'
    says out "] 7 of 8"
    script -qec "'$K' show nights" /dev/null > out < /dev/null
    says out $'\033[32m'
    # What is dropped is dimmed and keeps its colour.
    says out $'\033[2m\033[34m        71-75  data'
    says out $'\033[2m\033[33m        76-77  index run'
    says out $'\033[32m        68-70  index 3'
    script -qec "'$K' show worn" /dev/null > out < /dev/null
    says out $'           63  \033[37;41munreadable\033[0m 1 block'
    says out $'\033[2m\033[37;41mx\033[0m'
    # Two volumes, and a cut that is less: to be seen at once. Nothing else of it has colour.
    front rewound 7 99 before
    script -qec "'$K' compare before rewound" /dev/null > out < /dev/null
    says out $'\033[33mbut NEW\'s cut keeps 22 elements of the data side, OLD\'s 68; it has generation 1, OLD\'s 3\033[0m'
    says out $'68 elements\r'
    rm -rf volume && labelled volume KLA002 30a91a08-daae-48d1-ae75-69804e61d2ea
    script -qec "'$K' compare volume fresh" /dev/null > out < /dev/null
    says out $'\033[31mtwo volumes: OLD is KLA002 30a91a08-daae-48d1-ae75-69804e61d2ea, NEW is KLA001 30a91a08-daae-48d1-ae75-69804e61d2ea\033[0m'
    TERM=dumb script -qec "'$K' show nights" /dev/null > out < /dev/null
    says_not out $'\033'
    NO_COLOR=1 script -qec "'$K' show nights" /dev/null > out < /dev/null
    says_not out $'\033[3'
fi
