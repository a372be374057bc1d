#!/usr/bin/env bash
# choose-strikes.sh: writes crates/examples/proofs/Outside.antt, which the gate checks: what an outside program's book
# keeps of each trace of tests/vectors/traces. Each event is given as the verdict that the outside answer shows
# (N.octets: notice and octets written), and what is kept comes from N.book. No answer comes from this repository's
# code.
set -eu
cd "$(dirname "$0")/.."
out=crates/examples/proofs/Outside.antt
work=$(mktemp -d)
trap 'rm -rf "$work"' EXIT

# cases: one for each trace, as a record of verdicts and of the numbers of the events kept, counted from 1.
cases() {
    for book in $(ls tests/vectors/traces/*.book | sort -V); do
        if [ "$(wc -l < "$book")" -gt 1 ]; then echo "${book%.book}"; fi
    done | while read -r trace; do
        # leave out the line of field names; the book has no verdict on a line that is not an event
        tail -n +2 "$trace.octets" | paste -d' ' "$trace.book" - | awk -v trace="$(basename "$trace")" '
            $1 == "none" { next }
            {
                n++
                v = "refusal"
                if ($5 == "discarded") v = "discard"
                if ($5 == "none") v = "command"
                if ($5 == "up" || $5 == "changed") v = $7 == 0 ? "agree" : "accept"
                if ($5 ~ /-failed$/) v = "fail"
                if ($5 == "released") v = "free"
                if ($5 == "confused") v = "confuse"
                if ($5 == "rejected") v = "reject"
                all = all v " ∷ "
                if ($1 == "kept") kept = kept n " ∷ "
            }
            END { printf "record { verdicts = %s[]; kept = %s[] } -- %s\n", all, kept, trace }'
    done
}
cases > "$work/cases"
{
    cat << 'END'
-- What is left when failed attempts are struck out, beside what an outside program's book keeps: some of its traces, each event
-- as the verdict that the program's own answer shows. Computed, as one table. tests/choose-strikes.sh writes this file.
-- Assumes nothing.
use Prim.Native.Nat.{ℕ, suc}
use mathlib.Core.Path.{◌≡◌, refl}
use mathlib.Core.List.{List, [], ◌∷◌, map}
use Rattle.octets.specs.declared.Refusal.TheVariants.{WrongState}
use Rattle.book.specs.Book.{Verdict, refused, discarded, opened, agreed, failed, released, request_confused, request_right, request_wrong}
use Rattle.book.specs.Strike.{kept_of, sheet_of}

-- the verdicts; what stands in refusals, bearers, Requests and octets does not matter here
refusal : Verdict ℕ ℕ
refusal = refused WrongState

discard : Verdict ℕ ℕ
discard = discarded

command : Verdict ℕ ℕ
command = opened 0 []

agree : Verdict ℕ ℕ
agree = agreed 0

fail : Verdict ℕ ℕ
fail = failed

free : Verdict ℕ ℕ
free = released

confuse : Verdict ℕ ℕ
confuse = request_confused []

accept : Verdict ℕ ℕ
accept = request_right 0 []

reject : Verdict ℕ ℕ
reject = request_wrong []

-- an event: its number, and its verdict
record Numbered : Type 0 where
  pub number : ℕ
  pub verdict : Verdict ℕ ℕ

-- the events of verdicts, the first with number n
numbered : ℕ → List (Verdict ℕ ℕ) → List Numbered
numbered n [] = []
numbered n (v ∷ vs) = record { number = n; verdict = v } ∷ numbered (suc n) vs

-- the numbers of the events that are left
left : List (Verdict ℕ ℕ) → List ℕ
left vs = map (λ l. l.event.number) (kept_of (λ k e. e.verdict) (numbered 1 vs))

record Case : Type 0 where
  pub verdicts : List (Verdict ℕ ℕ)
  pub kept : List ℕ

cases : List Case
cases =
END
    sed 's/ -- .*//; 1s/^/    /; 2,$s/^/    ∷ /' "$work/cases"
    echo '    ∷ []'
    cat << 'END'

struck_outside : map (λ x. left x.verdicts) cases ≡ map (λ x. x.kept) cases
unfolding cases left numbered refusal discard command agree fail free confuse accept reject sheet_of
struck_outside = refl
END
} > "$out"
echo "$(wc -l < "$work/cases") traces, $(sed 's/; kept.*//' "$work/cases" | grep -o ∷ | wc -l) events"
