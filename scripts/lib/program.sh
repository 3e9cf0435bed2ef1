# What ./rgc and scripts/install know of the program: where it stands, proved and unproved, and whether it is up to date. They set `root` first.
made=$root/crates/rgc_main/out
proved=$made/rgc_main
unproved=$made/unproved/rgc

# Whether a program is there, and no source is newer than its stamp.
is_current() {
    [ -x "$1" ] && [ -e "$2" ] && [ -z "$(find "$root/crates" "$root/crates.txt" -name out -prune -o -type f -newer "$2" -print -quit)" ]
}

is_proved() {
    is_current "$proved" "$made/built"
}

is_compiled() {
    is_current "$unproved" "$made/unproved/made_from" && [ ! "$root/scripts/unproved" -nt "$made/unproved/made_from" ]
}
