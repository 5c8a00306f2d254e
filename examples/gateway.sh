#!/usr/bin/env bash
# Answers allow or deny for each header line on standard input, as a gateway before a service would: one `jwt verify --lines` runs
# beside it all the time, is asked for the token of each line, and answers before the next is read. Without an input of its own it
# reads the lines below, and prints what stands in gateway.out.
set -eu -o pipefail
cd "$(dirname -- "$(readlink -f -- "${BASH_SOURCE[0]}")")"

now=1300819379
coproc GATE { exec ../jwt --proved verify --lines --now "$now" --policy rfc7515-a1.policy --keys rfc7515-a1.keys; }

# Sends a token, and waits for its line.
asked() {
    printf '%s\n' "$1" >&"${GATE[1]}"
    IFS= read -r verdict <&"${GATE[0]}"
}

# A header line that isn't of the scheme Bearer is denied without a question.
decided() {
    case $1 in
    "Authorization: Bearer "*)
        asked "${1#Authorization: Bearer }"
        case $verdict in
        "accepted "*) echo "allow ($verdict)" ;;
        *) echo "deny ($verdict)" ;;
        esac
        ;;
    *) echo "deny (no token)" ;;
    esac
}

header_lines() {
    printf 'Authorization: Bearer %s\n' "$(cat rfc7515-a1.jwt)"
    printf 'Authorization: Bearer %sA\n' "$(cat rfc7515-a1.jwt)"
    printf 'Authorization: Basic YW5uOmFubg==\n'
    printf 'Authorization: Bearer %s\n' "$(cat rfc7515-a1.jwt)"
}

while IFS= read -r line; do
    decided "$line"
done < <(if [ "${1-}" = - ]; then cat; else header_lines; fi)

# At the end of its input the process ends with the status 0.
gate=$GATE_PID
exec {GATE[1]}>&-
wait "$gate"
