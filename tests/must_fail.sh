#!/usr/bin/env bash
# Edits that must be refused: wrong code and definitions, and statements made narrower.
#     tests/must_fail.sh                     all of them; the last line is 'N passed, M failed'
#     tests/must_fail.sh --try EDIT FOLDER   one of them, in a copy of the repository that the folder has or gets
# Those of crates/NAME/must-fail are edits of that crate, which `rt ci` tries too; here it is looked at where they are refused. Those of tests/must-fail are of
# crates whose check takes long, and of definitions, contracts and claims that a crate above must refuse, where the theorem, the row or the program stands that
# rules the edit out: '# refused:' names the crate, and none below it may refuse. An edit has the form of rt's: 'file:', then 'old:' and 'new:' in pairs.
# '# at:' names a declaration that must be refused, by its file in the crate and its name, or a goal that has no answer in a file, as 'fn NAME: GOAL' or by the
# file of the function. An edit passes if each that it names is refused for itself, and not only since it cites another one that is, or a name that the edit
# took away. Where a statement is made narrower, the edit mends the proof of it too, so that only what uses the statement can refuse it.
# What the repository's own checks keep in crates/NAME/out is brought up to date first, and each copy begins with it: only what an edit touches is checked again.
set -u
cd "$(dirname "$0")/.." || exit 2

# refused_by EDIT: the crate that must refuse it
refused_by() {
    case $1 in
    crates/*) echo "$1" | cut -d/ -f2 ;;
    *) sed -n 's/^# refused: //p' "$1" ;;
    esac
}

# base_of EDIT: the folder that its files are named from
base_of() {
    case $1 in
    crates/*) echo "$1" | cut -d/ -f1-2 ;;
    *) echo . ;;
    esac
}

# apply EDIT FOLDER: makes each of the edit's replacements below the folder; its old text must stand there once
apply() {
    perl -Mutf8 -CSD -e '
        my ($edit, $folder) = @ARGV;
        my ($file, $old, %text);
        open(my $lines, "<", $edit) or die "no $edit\n";
        while (my $line = <$lines>) {
            chomp $line;
            if ($line =~ /^file: (.*)/) {
                $file = "$folder/$1";
                unless (exists $text{$file}) {
                    open(my $in, "<", $file) or die "there is no $1\n";
                    local $/;
                    $text{$file} = <$in>;
                }
            } elsif ($line =~ /^old: (.*)/) {
                $old = $1;
                my $stands = () = $text{$file} =~ /\Q$old\E/g;
                die "its old text stands $stands times in $file: $old\n" if $stands != 1;
            } elsif ($line =~ /^new: ?(.*)/) {
                my $new = $1;
                $text{$file} =~ s/\Q$old\E/$new/;
            }
        }
        die "it edits nothing\n" unless %text;
        for my $name (keys %text) {
            open(my $out, ">", $name) or die "$name cannot be written\n";
            print $out $text{$name};
        }' "$1" "$2"
}

# stamp_of CRATE: a sum of all that the library kept of it was built of
stamp_of() {
    cat "$1/out/rlib/stamp" 2>/dev/null
}

# restored FOLDER: the folder has a copy of the repository, with what its checks kept
restored() {
    local work=$1 crate
    mkdir -p "$work/crates"
    rm -f "$work/crates.txt"
    cp crates.txt "$work/"
    for crate in crates/*/; do
        mkdir -p "$work/$crate"
        find "$work/$crate" -mindepth 1 -maxdepth 1 ! -name out ! -name .changed -exec rm -rf {} +
        find "$crate" -mindepth 1 -maxdepth 1 ! -name out -exec cp -r -t "$work/$crate" {} +
        [ -d "$work/${crate}out" ] && [ ! -e "$work/$crate.changed" ] && [ "$(stamp_of "$crate")" = "$(stamp_of "$work/$crate")" ] && continue
        rm -rf "$work/${crate}out" "$work/$crate.changed"
        [ ! -d "${crate}out" ] || cp -r "${crate}out" "$work/$crate"
    done
}

# refused_at FILE: what is refused for itself, by what the check said: declarations of files, and goals that the check itself found no proof of
refused_at() {
    {
        grep -E '^(\./)?[^ :]+:[0-9]+:[0-9]+: error: `' "$1" |
            grep -vE 'was not admitted|were not admitted|was rejected|were rejected|is not in scope|has no field|has no `|is no name|operand is missing|expected the end|cannot continue' |
            sed -E 's/^(\.\/)?([^ :]+):[0-9]+:[0-9]+: error: `([^`]*)`.*/\2: \3/'
        sed -nE 's/^note: (src\/[^ :]+):[0-9]+:[0-9]+: it is not proved that [^`]*(`[^`]*`[^`]*)*\(`([^`]*)`\).*/\1: \3/p' "$1"
        perl -ne 'if (/^fn [a-z_]+::(\S+): no proof: .*did not prove (.*)/) { my $name = $1; print "fn $name: $_\n" for $2 =~ /`([^`]*)`/g }' "$1"
    } | awk '!seen[$0]++'
}

# judged EDIT CRATE FILE: whether the check of the crate, which said this, refused the edit as it must; in one line
judged() {
    local edit=$1 crate=$2 said=$3 wanted found
    if grep -q '^rt: the library .* did not build' "$said"; then
        echo "refused below $crate: $(grep '^rt: the library' "$said" | head -n 1)"
        return 1
    fi
    if ! grep -q '^logic=not-proved' "$said"; then
        echo "not refused by $crate: $(grep '^logic=' "$said" || tail -n 1 "$said")"
        return 1
    fi
    wanted=$(sed -n 's/^# at: //p' "$edit")
    found=$(refused_at "$said")
    if [ -z "$wanted" ] || [ -n "$(echo "$wanted" | grep -vxF "$found")" ]; then
        echo "refused by $crate at '$(echo "$found" | paste -sd '|')', and '# at:' names '$(echo "$wanted" | paste -sd '|')'"
        return 1
    fi
    echo "refused by $crate, as it must be, at $(echo "$wanted" | paste -sd '|')"
}

# try EDIT FOLDER: the edit made in the folder's copy, and the crate checked that must refuse it. That it passed stands in a file: a shell that has many
# children forgets how one ended, once another has its number.
try() {
    local edit=$1 folder=$2 work crate began told
    work=$folder/worker-${WORKER:-0}
    crate=$(refused_by "$edit")
    began=$(date +%s)
    restored "$work"
    if told=$(apply "$edit" "$work/$(base_of "$edit")" 2>&1); then
        touch "$work/crates/$crate/.changed"
        (cd "$work/crates/$crate" && rt check --jobs 1) >"$work/said" 2>&1
        told=$(judged "$edit" "$crate" "$work/said") && touch "$folder/$(echo "$edit" | tr / -).passed"
    else
        told="cannot be made: $told"
    fi
    echo "edit $(basename "$edit" .edit): $told ($(($(date +%s) - began)) s)"
}

case ${1-} in
--try)
    try "$2" "$3"
    exit 0
    ;;
esac

all=$(mktemp -d)
edits=$(find crates/*/must-fail tests/must-fail -name '*.edit' | sort)
written=$(echo "$edits" | wc -l)
if rt all check >"$all/base" 2>&1; then
    # (those of one crate one behind the other; a worker a processor)
    for edit in $edits; do echo "$(refused_by "$edit") $edit"; done | sort | cut -d' ' -f2 |
        xargs -P "${WORKERS:-$(nproc)}" --process-slot-var=WORKER -I EDIT tests/must_fail.sh --try EDIT "$all"
else
    tail -n 20 "$all/base"
    echo "the repository is not proved as it stands, so no edit was tried"
fi
passed=$(find "$all" -maxdepth 1 -name '*.passed' | wc -l)
failed=$((written - passed))
rm -rf "$all"
echo "$passed passed, $failed failed"
[ "$failed" -eq 0 ]
