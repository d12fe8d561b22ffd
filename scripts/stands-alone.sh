#!/usr/bin/env bash
# The repository stands alone: its reader has nothing else. Fails, and prints where, if a file or a commit message cites
# what is not in the repository, names a path of somebody's machine, or tells how the work was done.
set -euo pipefail
export LC_ALL=C
cd "$(dirname "$0")/.."

# A letter in brackets keeps a pattern from matching its own line here.
patterns=(
    '\b([d]ocument|[p]aper|[m]emo|[d]emand)s?( no\.?| number| #)? ?[0-9]+\b'
    '\b[c]hange[ -]requests?\b'
    '\b[t]he mission\b'
    '\b[t]hes[ie]s\b'
    '\b[s]eed (document|paper)s?\b'
    '(^|[^A-Za-z0-9_.~-])/([w]ork|[o]pt|[t]mp|[r]oot|[h]ome)(/|\b)'
    '\b[o]pt/rattle\b'
    '\b[s]ub-?agents?\b'
    '\b(this|my|our|last|next|previous|earlier|later|another|other|helper) [s]essions?\b'
    '\b[l]anguage models?\b'
)
pattern=$(IFS='|'; echo "${patterns[*]}")

# The patterns can find something, and find nothing in plain words.
bad="as $(printf 'd%s' emand) 3 says"
if ! grep -qEi -e "$pattern" <<<"$bad" || grep -qEi -e "$pattern" <<<"as the check says"; then
    echo "stands-alone: the patterns do not work here" >&2
    exit 1
fi

files() {
    if [ -e .git ]; then
        git ls-files -z
    else
        find . \( -path ./target -o -path ./.git -o -path './crates/*/out' \) -prune -o -type f -print0
    fi
}

# Each line of each commit message, behind the commit's name.
messages() {
    git log --format='=%h%n%B' | awk '/^=[0-9a-f]+$/ { name = substr($0, 2); next } { print "commit " name ": " $0 }'
}

found=$(
    files | xargs -0 grep -HnoasEi -e "$pattern" -- || true
    if [ -e .git ] && git rev-parse -q --verify HEAD >/dev/null; then
        messages | grep -Ei -e "$pattern" || true
    fi
)
if [ -n "$found" ]; then
    echo "stands-alone: these cite or name what is not in the repository:" >&2
    echo "$found" >&2
    exit 1
fi
echo "stands-alone: nothing is cited that is not here"
