# shellcheck shell=sh
# What the gate counts and measures, and how it reads the checker's logs: functions for .ci/run, bench/run and the
# scripts in tests, in POSIX sh. All but those that are given a file want the repository's top as the working folder.

# where rt leaves the archive of the C interface
archive_made=crates/mtcore/out/libmtcore.a

# the number of a bound in .ci/bounds; fails where there isn't exactly one
bound() { # least|most NAME
    LC_ALL=C awk -v side="$1" -v name="$2" '
        $1 == side && $2 == name && NF == 3 && $3 ~ /^[0-9]+$/ { number = $3; found++ }
        END { if (found != 1) exit 1; print number }
    ' .ci/bounds
}

# at least so many were found, and at least one
enough() { # NAME FOUND
    enough_least=$(bound least "$1") || { echo "$1: .ci/bounds has not one line 'least $1 NUMBER'"; return 1; }
    [ "$enough_least" -gt 0 ] || { echo "$1: a least number of 0 asks for nothing"; return 1; }
    [ "$2" -ge "$enough_least" ] || { echo "$1: $2 found, at least $enough_least are needed"; return 1; }
    [ "$2" -eq "$enough_least" ] || echo "note: $1: $2 found; .ci/bounds asks for $enough_least only"
}

# at most so many were found
few() { # NAME FOUND
    few_most=$(bound most "$1") || { echo "$1: .ci/bounds has not one line 'most $1 NUMBER'"; return 1; }
    [ "$2" -le "$few_most" ] || { echo "$1: $2 found, at most $few_most are allowed"; return 1; }
    [ "$2" -eq "$few_most" ] || echo "note: $1: $2 found; .ci/bounds allows $few_most"
}

# ---- what stands in the repository

crates_listed() { sed -n 's/^\([a-z0-9_]*\)\( staticlib\)\{0,1\}:.*/\1/p' crates.txt; }

edits_of() { # CRATE
    for edit in "crates/$1/must-fail"/*.edit; do [ ! -f "$edit" ] || echo "$edit"; done
}

edits_listed() { for crate in $(crates_listed); do edits_of "$crate"; done; }

programs_listed() { for crate in $(crates_listed); do [ ! -f "crates/$crate/src/main.rt" ] || echo "$crate"; done; }

# edits that change a proof file, or a contract rather than code: they show nothing of the code
edits_beside_code() {
    edits_listed | while read -r edit; do
        ! grep -q -e '^file: proofs/' -e '^\(old\|new\):.*\(ensures\|requires\|⌜\)' "$edit" || echo "$edit"
    done
}

# the edits that docs/COVERAGE-*.md name, as 'crate/label, label': CRATE/LABEL lines, with those that don't exist
# among them
edits_named() {
    LC_ALL=C awk '
        /^\|/ {
            cells = split($0, cell, "|")
            for (c = 1; c <= cells; c++) {
                gsub(/`[^`]*`/, " ` ", cell[c])
                of = ""
                words = split(cell[c], word, /[ ,]+/)
                for (w = 1; w <= words; w++) {
                    if (word[w] ~ /^\(/) of = ""
                    ends = word[w] ~ /[.;:)]$/
                    gsub(/[.;:()]/, "", word[w])
                    if (word[w] ~ /^[a-z0-9_]+\/[a-z0-9_]+$/) { of = word[w]; sub(/\/.*/, "", of); print word[w] }
                    else if (of != "" && word[w] ~ /^[a-z0-9]+(_[a-z0-9]+)*$/) print of "/" word[w]
                    else if (word[w] != "") of = ""
                    if (ends) of = ""
                }
            }
        }
    ' docs/COVERAGE-*.md | sort -u
}

# functions, types and host tests that a document names as `crate::name` or `file::test`, and that aren't there; the
# record of landings may name what is gone
names_lost() {
    find README.md ARCHITECTURE.md docs -name '*.md' ! -name LANDINGS.md \
        -exec grep -h -o '`[a-z0-9_]*\(::[a-z_]*\)*::[A-Za-z0-9_]*`' {} + | tr -d '`' | sort -u |
        while read -r name; do
            of=${name%%::*}
            case $of in crate | file | u64) continue ;; esac
            declared="\(fn\|struct\|enum\|mod\|const\) ${name##*::}\>"
            grep -q -s "$declared" "crates/$of/src"/*.rt "tests/differential/tests/$of.rs" || echo "$name"
        done
}

# lines of code above 120 columns; a column is a character, so only the first byte of each counts
long_lines() {
    find crates -name out -prune -o -path '*/src/*' -name '*.rt' -exec env LC_ALL=C awk '
        { line = $0; gsub(/[\200-\277]/, "", line) }
        length(line) > 120 { print FILENAME ":" FNR }
    ' {} +
}

# ---- what ships: the crates that mtcore reaches

crates_shipped() {
    LC_ALL=C awk '
        /^[a-z0-9_]+( staticlib)?:/ { crate = $1; sub(/:$/, "", crate); needs[crate] = $0; sub(/^[^:]*:/, "", needs[crate]) }
        END {
            ships["mtcore"]
            do {
                more = 0
                for (crate in ships) {
                    count = split(needs[crate], need, " ")
                    for (i = 1; i <= count; i++) if (!(need[i] in ships)) { ships[need[i]]; more = 1 }
                }
            } while (more)
            for (crate in ships) print crate
        }
    ' crates.txt | sort
}

sources_shipped() { for crate in $(crates_shipped); do find "crates/$crate/src" -name '*.rt' 2>/dev/null; done; }

# Tables in the code that ships: a constant or static array, or an array written out. A byte is told by comparisons.
tables_written() {
    sources_shipped | while read -r file; do
        LC_ALL=C awk -v file="$file" '
            { line = $0; sub(/\/\/.*/, "", line) }
            line ~ /(const|static)( mut)? [A-Za-z0-9_]+ *: *&?\[/ || line ~ /\[ *(-?[0-9]|true|false|b\047)[^];]*,/ {
                print file ":" FNR
            }
        ' "$file"
    done
}

# byte strings in the code that ships which .ci/words doesn't have: a class may not be told by a search in one
words_unlisted() {
    sources_shipped | while read -r file; do
        LC_ALL=C grep -o 'b"[^"\]*\(\\.[^"\]*\)*"' "$file" | grep -v -x -F -f .ci/words | sed "s|^|$file: |"
    done
}

# Of the sections that hold an archive's 16-byte constants or one of its fixed texts, a line each: the name and the bytes
# that are parts of the byte strings in .ci/words: texts that the code writes. Shorter parts of them among the 16-byte
# constants are numbers in the code.
archive_texts() { # ARCHIVE
    [ -f .ci/words ] || return 0
    {
        sed -n 's/^b"\(.*\)"$/\1/p' .ci/words | while IFS= read -r word; do
            printf '%b' "$(printf '%s' "$word" | sed 's/\\"/"/g')" | od -An -v -tx1 | tr -d ' \n'
            echo
        done
        LC_ALL=C size -A -d "$1" 2>/dev/null | LC_ALL=C awk '$1 ~ /^\.rodata(\.cst16$|\.\.Lstatic\.)/ { print $1 }' |
            while read -r section; do
                echo "section $section"
                LC_ALL=C objdump -s -j "$section" "$1" 2>/dev/null |
                    LC_ALL=C sed -n 's/^ [0-9a-f]* \([0-9a-f ]*\)  .*/\1/p' | tr -d ' '
            done
    } | LC_ALL=C awk '
        function is_text(bytes,    w, at) {
            for (w = 1; w <= words; w++) {
                at = index(word[w], bytes)
                if (at % 2 == 1) return 1
            }
            return 0
        }
        function closed() {
            if (section != "" && held != "" && is_text(held)) texts[section] += length(held) / 2
            held = ""
        }
        $1 == "section" { closed(); section = $2; order[++sections] = section; next }
        section == "" { word[++words] = $0; next }
        section ~ /cst16$/ { if (length($0) == 32 && is_text($0)) texts[section] += 16; next }
        { held = held $0 }
        END {
            closed()
            for (s = 1; s <= sections; s++) print order[s], texts[order[s]] + 0
        }
    '
}

# Of an archive, a line each: 'code BYTES', 'constants BYTES', 'data BYTES', and 'section KIND NAME BYTES' for each
# section that is loaded. What isn't loaded, as notes, symbols and debugging, doesn't count. Texts that the code writes
# count as code, wherever the compiler puts them.
archive_bytes() { # ARCHIVE
    [ -f "$1" ] && LC_ALL=C size -A -d "$1" 2>/dev/null | LC_ALL=C awk -v texts="$(archive_texts "$1")" '
        BEGIN {
            lines = split(texts, line, "\n")
            for (l = 1; l <= lines; l++) { split(line[l], part, " "); text[part[1]] = part[2] }
        }
        $1 !~ /^\./ || $2 !~ /^[0-9]+$/ { next }
        $1 ~ /^\.(comment|note|llvm_addrsig|debug|symtab|strtab|shstrtab)/ { next }
        { kind = "constants"; known = 1 }
        $1 ~ /^\.text/ { kind = "code" }
        $1 ~ /^\.(data|bss|tdata|tbss)/ && $1 !~ /^\.data\.rel\.ro/ { kind = "data" }
        text[$1] > 0 {
            $2 -= text[$1]
            bytes["code"] += text[$1]
            print "section code texts", text[$1]
        }
        { bytes[kind] += $2; if ($2 > 0) print "section", kind, $1, $2 }
        END {
            split(known ? "code constants data" : "", kinds, " ")
            for (k in kinds) print kinds[k], bytes[kinds[k]] + 0
        }
    '
}

# ---- what the checker says

# from the output of rt ci: crates proved, now or by an earlier run of the same files, and programs that ran
crates_proved() { grep -a -c -e '^rt: [a-z0-9_]* proved$' -e '^rt: [a-z0-9_]* is kept: ' "$1"; }
programs_ran() { sed -n "s/^rt: \([a-z0-9_]*\) ran.*, and wrote what its file stdout has$/\1/p" "$1" | sort -u | grep -c .; }

# rt ci passes over edits that it can't apply or read, and says on its line 'rt: ok' how many there were
all_well() { # LOG
    grep -a '^rt: ok' "$1" | grep -a -v -q ', [0-9][0-9]* bad'
}

# Whether rt's words of an edit refuse it at a fact that no longer holds. Such a refusal is either a promise of the code
# that no proof was found for, or an error in a proof file that says of what was to be proved that it isn't so: two
# sides that differ, a search or an equation that finds nothing. All else is red, as an edit with an unknown name, one
# that is no term or has another type, and one that changes the steps which the proof file is about.
false_fact() { # WORDS
    printf '%s\n' "$1" | LC_ALL=C awk '
        !sub(/^refused, as it must be: /, "") { exit }
        /^note: [^ ]*src\/[^ ]*\.rt:[0-9]+:[0-9]+: it is not proved that / { fact = 1 }
        /^\.\/proofs\/[^ ]*\.antt:[0-9]+:[0-9]+: error: `[^`]*`: / {
            said = $0
            sub(/^.*: error: `[^`]*`: /, "", said)
            if (said ~ /^(as printed|computed as far as they go), the two (types|sides) /) fact = 1
            if (said ~ /^computed as a goal is, one side reads /) fact = 1
            if (said ~ /^`.*` ≟ `.*`: does not hold /) fact = 1
            if (said ~ /^expected type `/) fact = 1
            if (said ~ /^`search`: no proof of /) fact = 1
            if (said ~ /^`rw`: no occurrence of /) fact = 1
            if (said ~ /^`simp`: no equation of the list (has an instance|can be applied) /) fact = 1
            if (said ~ /^`cc`: the equations do not join /) fact = 1
            if (said ~ /^`omega`: .*does not follow from what it read/) fact = 1
            if (said ~ /^give a proof of that as the last argument, `(rw|simp) /) fact = 1
        }
        END { exit !fact }
    '
}

# the edits that rt ci refused, a line each: 'fact CRATE/LABEL', or 'other CRATE/LABEL' and its words
edits_refused() { # LOG
    edits_listed | sed 's|^crates/||; s|/must-fail/|/|; s|\.edit$||' | while read -r edit; do
        words=$(sed -n "s|^rt: must-fail $edit\.edit: ||p" "$1" | tail -n 1)
        case $words in "refused, as it must be"*) ;; *) continue ;; esac
        if false_fact "$words"; then
            echo "fact $edit"
        else
            echo "other $edit $words"
        fi
    done
}
