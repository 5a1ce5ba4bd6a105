# Help and bad use.
is 0 "$K" --help
says out "usage: klapouzen"
for command in check show why cut compare files extract label ansi; do
    is 0 "$K" $command --help
    says out "usage: klapouzen $command"
    is 2 "$K" $command
    says err "usage: klapouzen $command"
    is 2 "$K" $command --nonsense
    says err "unknown option: --nonsense"
done
for command in check show why cut compare files extract label ansi; do
    "$K" $command --help > wanted
    is 0 "$K" $command -h
    same out wanted
    is 0 "$K" help $command
    same out wanted
done
"$K" --help > wanted
is 0 "$K" -h
same out wanted
is 0 "$K" help
same out wanted
is 2 "$K" help nonsense
says err "unknown command: nonsense"
is 0 "$K" --version
says out "klapouzen 0."
is 2 "$K"
is 2 "$K" nonsense
says err "unknown command"
