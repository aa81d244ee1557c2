#!/bin/bash
# A bank's requests by curl. Each line of standard input has a URL, a key, a method and a body, with tabs between them;
# a body @FILE is that of a file. Prints for each the status of the reply, its body, and a line with a dot.
set -eu
reply=$(mktemp)
trap 'rm "$reply"' EXIT

# --retry alone sends again after 429, 502, 503 and 504; --retry-all-errors also where the connection ended without a
# reply
again=(--retry 8 --retry-delay 1 --retry-all-errors)

while IFS=$'\t' read -r url key method body; do
    sent=()
    if [ "$method" = POST ]; then
        sent=(--data-binary "$body")
    fi
    curl --silent "${again[@]}" -H "desk-key: $key" "${sent[@]}" -o "$reply" -w '%{http_code}\n' "$url"
    cat "$reply"
    printf '\n.\n'
done
