#compdef jwt
# Completions of the command jwt for zsh, drawn by gate/options.py. As _jwt in a folder of $fpath, or: source docs/jwt.zsh

_jwt() {
    local -a commands=(
        'verify:validate a token'
        'show:show a token without verifying it'
        'issue:issue a token by a secret'
        'jwk:make a key set of public keys, or a new secret'
        'keys:list the keys of a key set'
        'policy:explain a policy'
        'mac:compute the tag of a token'
    )
    if ((CURRENT == 2)); then
        _describe command commands
        _arguments '--version[print the version]'
        return
    fi
    local command=$words[2]
    shift words
    ((CURRENT--))
    case $command in
    verify)
        _arguments '--now[The moment]:n:' \
            '--public-keys[Verifies signatures by public keys too]' \
            '--policy[The file of the policy]:file:_files' \
            '--keys[The file of the key set]:file:_files' \
            '(--trim)--token[The file of the token]:file:_files' \
            '--access[The file of an access rule]:file:_files' \
            '--expect[The claim NAME of an accepted token has to be this very text]:name=text:' \
            '--lines[Answers each line of standard input as a token]' \
            '--json[Prints one JSON object on one line]' \
            '(--token)--trim[Drops a final line feed of standard input]'
        ;;
    show)
        _arguments '--limit[The most octets of a token]:n:' \
            '--json[Prints one JSON object on one line]' \
            '--pretty[Prints the headers and the payload for a person]' \
            '--now[The moment]:n:' \
            '1:file:_files'
        ;;
    issue)
        _arguments '--alg[The algorithm]:choice:(HS256 HS384 HS512)' \
            '--typ[The media type of the token]:t:' \
            '--form[The form of the token]:choice:(compact json flattened)' \
            '--keys[The file of the key set]:file:_files'
        ;;
    jwk)
        _arguments '--file[The file of the keys]:file:_files' \
            '--der[Reads one key in DER]' \
            '--kid[The kid of each key]:name:' \
            '--kid-thumbprint[Gives each key its thumbprint by SHA-256 as kid]' \
            '--alg[The alg of each key]:choice:(HS256 HS384 HS512 RS256 RS384 RS512 PS256 PS384 PS512 ES256 ES384 ES512 EdDSA)' \
            '--bare[Prints the JWK alone]' \
            '--new[Makes a new secret]:choice:(HS256 HS384 HS512)' \
            '--secret[The file of a secret]:file:_files' \
            '--json[Prints one JSON object on one line]'
        ;;
    keys)
        _arguments '--json[Prints one JSON object on one line]'
        ;;
    policy)
        _arguments '--policy[The file of the policy]:file:_files' \
            '--keys[The file of the key set that goes with it]:file:_files' \
            '--service[The file of a service document]:file:_files' \
            '--json[Prints one JSON object on one line]'
        ;;
    mac)
        _arguments '--k[The key]:text:' \
            '--key-file[The file of the key]:file:_files' \
            '--limit[The most octets of a token]:n:'
        ;;
    esac
}
# (as a file of $fpath it is the function itself)
if [ "$funcstack[1]" = _jwt ]; then
    _jwt "$@"
else
    compdef _jwt jwt
fi
