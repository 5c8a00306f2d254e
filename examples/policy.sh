#!/usr/bin/env bash
# Says what the policy of login.sh means together with its keys, of which nothing is advised; what is advised of the policy of the example of
# RFC 7515, appendix A.1; what stands in its token, for a person; and what a service document asks. It prints what stands in policy.out.
set -eu -o pipefail
cd "$(dirname -- "$(readlink -f -- "${BASH_SOURCE[0]}")")"

../jwt --proved policy --policy login.policy --keys rfc7515-a1.keys
if advised=$(../jwt --proved policy --policy rfc7515-a1.policy --keys rfc7515-a1.keys); then
    echo "nothing is advised"
else
    echo "$advised" | grep '^advice '
fi
../jwt --proved show --pretty --now 1300819375 < rfc7515-a1.jwt
../jwt --proved policy --service service.json
