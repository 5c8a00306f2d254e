#!/usr/bin/env bash
# Holds each rule of docs/ACCESS.md against the claims that stand beside it in access/: for each line of NAME.claims it issues a token,
# and validates it by NAME.policy under NAME.access, a second before it expires. It prints what stands in access/expected.txt.
set -eu -o pipefail
cd "$(dirname -- "$(readlink -f -- "${BASH_SOURCE[0]}")")"

# The verdict on the token of some claims; its status is 1 where it is denied.
verdict() {
    printf '%s' "$2" | cat rfc7515-a1.keys - | ../jwt --proved issue --alg HS256 --typ at+jwt |
        ../jwt --proved verify --now 1639528911 --policy "access/$1.policy" --keys rfc7515-a1.keys --access "access/$1.access"
}

for rule in access/*.access; do
    name=$(basename -- "$rule" .access)
    echo "$name"
    while IFS= read -r claims; do
        status=0
        verdict "$name" "$claims" || status=$?
        if [ "$status" -gt 1 ]; then
            exit "$status"
        fi
    done <"access/$name.claims"
done
