# Completions of the command jwt for bash, drawn by gate/options.py. In use after: source docs/jwt.bash

_jwt() {
    local word=${COMP_WORDS[COMP_CWORD]} before=${COMP_WORDS[COMP_CWORD - 1]} choices=
    if [ "$COMP_CWORD" -eq 1 ]; then
        choices="verify show issue jwk keys policy mac --version"
    else
        case ${COMP_WORDS[1]}:$before in
        issue:--alg) choices="HS256 HS384 HS512" ;;
        jwk:--new) choices="HS256 HS384 HS512" ;;
        jwk:--alg) choices="HS256 HS384 HS512 RS256 RS384 RS512 PS256 PS384 PS512 ES256 ES384 ES512 EdDSA" ;;
        issue:--form) choices="compact json flattened" ;;
        verify:--policy | verify:--keys | verify:--token | verify:--access | issue:--keys | jwk:--file | jwk:--secret | policy:--policy | policy:--keys | policy:--service | mac:--key-file)
            # (so that what is a word of bash within a file's name is quoted)
            compopt -o filenames
            mapfile -t COMPREPLY < <(compgen -f -- "$word")
            return
            ;;
        # The values of these aren't known here.
        verify:--now | verify:--expect | show:--limit | show:--now | issue:--typ | jwk:--kid | mac:--k | mac:--limit) ;;
        verify:*) choices="--now --public-keys --policy --keys --token --access --expect --lines --json --trim" ;;
        show:*)
            choices="--limit --json --pretty --now"
            compopt -o filenames
            mapfile -t COMPREPLY < <(compgen -W "$choices" -- "$word"; compgen -f -- "$word")
            return
            ;;
        issue:*) choices="--alg --typ --form --keys" ;;
        jwk:*) choices="--file --der --kid --kid-thumbprint --alg --bare --new --secret --json" ;;
        keys:*) choices="--json" ;;
        policy:*) choices="--policy --keys --service --json" ;;
        mac:*) choices="--k --key-file --limit" ;;
        esac
    fi
    mapfile -t COMPREPLY < <(compgen -W "$choices" -- "$word")
}
complete -F _jwt jwt ./jwt
