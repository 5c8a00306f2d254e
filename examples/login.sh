#!/usr/bin/env bash
# Issues a token for a name, ann where none is given, with ten minutes to live, and validates it, by the clock, as the shop would
# that the login is for; then as it would eleven minutes later. For ann it prints what stands in login.out.
set -eu -o pipefail
cd "$(dirname -- "$(readlink -f -- "${BASH_SOURCE[0]}")")"

name=${1:-ann}
case $name in
*[!A-Za-z0-9_.@-]* | "")
    echo "login: a name has letters, digits and the signs _ . @ - alone" >&2
    exit 2
    ;;
esac

now=$(date +%s)
claims=$(printf '{"iss":"https://login.example","sub":"%s","aud":"shop","iat":%d,"exp":%d}' "$name" "$now" "$((now + 600))")
token=$(printf '%s' "$claims" | cat rfc7515-a1.keys - | ../jwt --proved issue --alg HS256 --typ at+jwt)

# What the shop says of the token; its status says whether it takes it.
verdict() {
    printf '%s' "$token" | cat login.policy rfc7515-a1.keys - | ../jwt --proved verify "$@"
}

if verdict; then
    echo "welcome, $name"
fi
if ! verdict --now "$((now + 660))"; then
    echo "$name has to log in again"
fi
