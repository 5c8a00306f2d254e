#!/usr/bin/env bash
# Refused documents and tokens and files that can't be read, with what is said of them on standard error. It prints what stands in reasons.out.
set -eu -o pipefail
cd "$(dirname -- "$(readlink -f -- "${BASH_SOURCE[0]}")")"

# Runs the command, whatever its status, with standard error behind standard output.
jwt() {
    ../jwt --proved "$@" 2>&1 || true
}

made=$(mktemp -d)
trap 'rm -rf "$made"' EXIT
files=(--policy rfc7515-a1.policy --keys rfc7515-a1.keys)
token='{"payload":"e30","payload":"e30","signature":""}'

echo '# a value out of its range'
printf '{"algs":["HS256"],"leeway":86401}\n{"keys":[]}\n' | jwt verify --now 1
echo '# a member that there is not'
jwt policy --policy <(printf '{"algs":["HS256"],"issuer":"a"}')
echo '# no JSON text from somewhere on'
printf '{"keys":[\n{"kty":"oct","k":"AA" "x":1}]}' | jwt keys
echo '# a token in JSON form with a name that stands twice'
printf '%s' "$token" | jwt verify --now 1 "${files[@]}"
echo '# the same, with --json'
printf '%s' "$token" | jwt verify --now 1 --json "${files[@]}"
echo '# a file that is not there, and a directory'
jwt verify --now 1 --policy nonesuch --keys rfc7515-a1.keys < /dev/null
jwt verify --now 1 --policy . --keys rfc7515-a1.keys < /dev/null
echo '# a token that is refused for what it holds'
jwt verify --now 1300819380 "${files[@]}" < rfc7515-a1.jwt
echo '# the same, with --json'
jwt verify --now 1300819380 --json "${files[@]}" < rfc7515-a1.jwt
echo '# a token with a line feed behind it, as a file, with --trim, and with a date for --now'
{ cat rfc7515-a1.jwt; echo; } > "$made/token"
jwt verify --now 1300819379 "${files[@]}" < "$made/token"
jwt verify --now 1300819379 "${files[@]}" --token "$made/token"
jwt verify --now 2011-03-22T18:42:59Z "${files[@]}" --trim < "$made/token"
jwt show --pretty --now 2011-03-22T20:42:59+02:00 "$made/token" | tail -n 1
echo '# a token with the word of the header in front'
{ printf 'Bearer '; cat rfc7515-a1.jwt; } | jwt verify --now 1300819379 "${files[@]}"
echo '# a claim that an access rule asks for'
jwt verify --now 1300819379 "${files[@]}" --access access/rfc9068.access < rfc7515-a1.jwt
echo '# a key in PEM and a URL, where a key set is wanted'
printf '%s\n' '-----BEGIN PUBLIC KEY-----' | jwt keys
jwt verify --now 1 --policy rfc7515-a1.policy --keys https://login.example/keys --json < /dev/null
echo '# a policy that no option names'
jwt verify --now 1 --keys rfc7515-a1.keys < rfc7515-a1.jwt
echo "# a word of another program, and a token that no option leaves room for"
jwt decode
jwt verify --now 1 --trim < "$made/token"
