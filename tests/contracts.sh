#!/usr/bin/env bash
# Holds every public function of the libraries to one possible result. Each `ensures` clause must be an equation: of the result, of all
# fields of the result, or of what a `&mut` holds at the return. A result needs one, and so does every `&mut`. For each equation the
# crate's proofs/OneResult.antt must state, under the function's name and _lem, One (right side), with x for the `x.now`, `x.old` and `x.entry` of a parameter.
# The programs are left out, and console, which they share: what a read gives has no equation. docs/promises.md says why.
set -euo pipefail
shopt -s inherit_errexit
cd "$(dirname "$0")/../crates"
count=0
bad=0

# The public functions of a crate, and methods of its public types, a line each: module and name.
public_functions() {
    local module
    for module in lib $(sed -nE 's/^pub mod ([a-z0-9_]+);.*/\1/p' "$1/src/lib.rt"); do
        sed -nE "s/^ *pub (extern \"C\" )?fn ([a-z0-9_]+).*/$module \2/p" "$1/src/$module.rt"
    done
    tr '\n' ' ' < "$1/src/lib.rt" | { grep -oE 'pub use [a-z0-9_]+::[^;]*;' || true; } | sed -E 's/^pub use ([a-z0-9_]+)::\{?([^;}]*)\}?;/\1 \2/' | while read -r module names; do
        tr -d ' ' <<< "$names" | tr ',' '\n' | sed -nE "s/^([a-z].*)/$module \1/p"
        case "$names" in *[A-Z]*) sed -nE "s/^ +pub fn ([a-z0-9_]+).*/$module \1/p" "$1/src/$module.rt" ;; esac
    done
}

refuse() {
    echo "contracts: $crate::$name: $1"
    refused=1
}

# An equation of $1, with the right side $2.
equation() {
    local right
    right=$(sed -E 's/(^|[^a-z0-9_.])([a-z0-9_]+)\.(now|old)/\1\2/g; s/\.entry//g' <<< "$2")
    case " ${right//[().]/ } " in *" result "* | *" new "*) refuse "speaks on both sides of what the call gives: $2" ;; esac
    case "$stated" in
        *"One ($right) "*) ;;
        *"One $right "*) [[ $right =~ ^(\(.*\)\.)?[a-z_.]+$ ]] || refuse "not one argument of One: $right" ;;
        *) refuse "not in proofs/OneResult.antt: One ($right)" ;;
    esac
    equated="$equated $1"
}

clause() {
    local body part fields=
    [[ $1 =~ ^ensures\ ([a-z_]+\ )?\{\ (.+)\ \}$ ]] || { refuse "not read: $1"; return; }
    body=${BASH_REMATCH[2]}
    if [[ $body =~ ^result(\.now)?\ ≡\ (.+)$ ]]; then
        equation result "${BASH_REMATCH[2]}"
    elif [[ $body =~ ^([a-z0-9_]+)\.new\ ≡\ (.+)$ ]]; then
        equation "${BASH_REMATCH[1]}.new" "${BASH_REMATCH[2]}"
    else
        while read -r part && [[ $part =~ ^result\.([a-z0-9_]+)\ ≡\ (.+)$ ]]; do
            fields="$fields${BASH_REMATCH[1]} "
            equation field "${BASH_REMATCH[2]}"
        done < <(sed -E 's/^\((.*)\)$/\1/; s/\) × \(/\n/g' <<< "$body")
        if [ -n "$fields" ] && [ "$fields" = "$(fields_of "$type")" ]; then
            equated="$equated result"
        else
            refuse "not an equation of the result, of all its fields or of what is lent: $1"
        fi
    fi
}

fields_of() {
    sed -nE "/^pub struct $1\>/,/^}/s/^ +(pub )?([a-z0-9_]+):.*/\2/p" "$crate"/src/*.rt | tr '\n' ' '
}

for crate in $(sed -nE 's/^([a-z0-9_]+)( staticlib)?:.*/\1/p' ../crates.txt | grep -vxE 'plan|run|console'); do
    functions=$(public_functions "$crate")
    while read -r module name; do
        [ -n "$name" ] || continue
        refused=0
        equated=
        heading=$(awk -v f="fn $name" '/^ *pub / && (index($0, f "(") || index($0, f "<")) { on = 1 }
            on { print } on && /\{$/ { exit }' "$crate/src/$module.rt")
        [ -n "$heading" ] || refuse "not found in src/$module.rt"
        signature=$(sed -E '/^ *(requires|ensures) /,$d' <<< "$heading" | tr '\n' ' ')
        type=$(sed -nE 's/.*\) -> ([^ <]+).*/\1/p' <<< "$signature")
        stated=$(awk -v f="pub ${name}_lem :" '/^pub / { on = index($0, f) == 1 }
            on && !/^ *--/ { print }' "$crate/proofs/OneResult.antt" | tr -s ' \n' ' ')
        while read -r line; do
            case "$line" in ensures*) clause "$line" ;; esac
        done <<< "$heading"
        for part in ${type:+result} $(grep -oE "[a-z0-9_]+: &('[a-z]+ )?mut " <<< "$signature" | sed 's/:.*/.new/'); do
            case " $equated " in *" $part "*) ;; *) refuse "no equation of $part" ;; esac
        done
        count=$((count + 1))
        bad=$((bad + refused))
    done <<< "$functions"
done

echo "contracts: $((count - bad)) of $count public functions have one possible result"
[ "$count" -gt 0 ] && [ "$bad" -eq 0 ]
