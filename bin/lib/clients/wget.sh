#!/bin/bash
# A bank's requests by wget. Each line of standard input has a URL, a key, a method and a body, with tabs between them;
# a body @FILE is that of a file. Prints for each the status of the reply, its body, and a line with a dot.
set -eu
folder=$(mktemp -d)
trap 'rm -r "$folder"' EXIT

# Sends a request once, and says its status, or nothing where there was no reply. (By itself wget sends again where the
# connection ended without a reply, or after 504. It then adds to what it has written, so each try is a run here.)
try() {
    wget --tries=1 --no-verbose --server-response --content-on-error -O "$folder/reply" "$@" 2> "$folder/said" || true
    sed -n 's/^ *HTTP\/1.1 \([0-9]*\).*/\1/p' "$folder/said"
}

while IFS=$'\t' read -r url key method body; do
    sent=()
    case $method$body in
    POST@*) sent=(--post-file="${body#@}") ;;
    POST*) sent=(--post-data="$body") ;;
    esac
    for tried in {1..8}; do
        [ "$tried" = 1 ] || sleep 1
        status=$(try --header="desk-key: $key" "${sent[@]}" "$url")
        case $status in
        '' | 429 | 502 | 503 | 504) ;;
        *) break ;;
        esac
    done
    echo "$status"
    cat "$folder/reply"
    printf '\n.\n'
done
