#!/usr/bin/env bash
# Shows what the reader does with a manual. `make demo` builds the reader and runs this.
set -euo pipefail
cd "$(dirname "$0")/.."
reader=target/bin/reader
manual=demo/valve.manual

# The bytes of the manual in hexadecimal; with a place and a byte, that byte in place of the one there.
digits() {
    od -An -v -tx1 "$manual" | tr -s ' \n' '\n\n' | awk -v place="${1:--1}" -v byte="${2:-}" \
        'NF { printf "%s", n == place ? byte : $1; n++ }'
}

# Runs the reader on commands, one to an argument, and prints each with its answer.
ask() {
    echo
    paste -d '\n' <(printf '  > %s\n' "$@" | sed 's/^\(.\{60\}\).\{8,\}$/\1 (and so on)/') \
        <(printf '%s\n' "$@" | "$reader" | sed 's/^/    /')
    echo
}

if [ "$(sed 's/#.*//' demo/valve.hex | tr -d ' \t\n' | tr 'A-F' 'a-f')" != "$(digits)" ]; then
    echo "demo/valve.hex and $manual differ" >&2
    exit 1
fi

cat <<'END'
A manual holds a small program: registers that keep values, rules that change them, and entries that say which
rules are tried in which order, and which rules block which. It is a string of bytes. Before anything is done with
a manual it is checked whole: either it is accepted, or the first byte at fault is named, with the number of the
question that it fails. The first byte of a manual is at place 0.

The manual in demo/valve.manual is of a valve, fed by a pump; demo/valve.hex says what each of its bytes means.
It is loaded from its file, and checked:
END
ask "load $manual" check

cat <<'END'
One byte is changed. At place 104 the rule that opens the valve asks whether register 3, the pump, is on. Now it
asks for register 2, which holds how far the valve is open: a number where a yes or no is wanted. Question 6 asks
whether a number names something of the type that is wanted there:
END
ask "manual $(digits 104 02)" check

cat <<'END'
The last byte, at place 208, is left out. Question 2 asks whether all of the last record is there:
END
ask "manual $(digits 208 '')" check

cat <<'END'
What the reader does not understand is said in one line, and changes nothing:
END
ask "load $manual" "manual 5G" "chek" check help
