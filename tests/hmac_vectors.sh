#!/usr/bin/env bash
# R104, R106: makes the expected output of the program hmac_vectors again, with openssl, and compares the file that the program is held to: the seven
# cases of RFC 4231, and a key of each length from 0 to 257 bytes. The seven are held against the values that the RFC prints as well.
set -euo pipefail
cd "$(dirname "$0")/.."
source tests/common/need.sh

file=crates/hmac_vectors/stdout

need openssl openssl

# What RFC 4231, sections 4.2 to 4.8, prints for HMAC-SHA-256; of case 5 it prints 128 bits.
rfc=(
    b0344c61d8db38535ca8afceaf0bf12b881dc200c9833da726e9376c2e32cff7
    5bdcc146bf60754e6a042426089575c75a003f089d2739839dec58b964ec3843
    773ea91e36800e46854db8ebd09181a72959098b3ef8c122d9635514ced565fe
    82558a389a443c0ea4cc819899f2083a85f0faa3e578f8077a2e3ff46729665b
    a3b6167473100ee06e0c796c2955552b
    60e431591ee0b67f0d8a26aacbf5b77f8e0bc6213728c5140546040f0ee37f54
    9b09ffa71b942fcb27635fbcd5b0e944bfdc63644f0713938a7f51535c3a35e2
)

# The mac, under a key in hexadecimal, of the message whose bytes are given as escapes of printf.
mac() {
    local line
    line=$(printf '%b' "$2" | openssl dgst -sha256 -mac HMAC -macopt "hexkey:$1")
    printf '%s' "${line##* }"
}

# TEXT, COUNT times.
repeated() {
    local i
    for ((i = 0; i < $2; i++)); do
        printf '%s' "$1"
    done
}

# COUNT bytes, each in hexadecimal behind PREFIX; byte i is (i * X + Y) mod 256.
pattern() {
    local i byte bytes=''
    for ((i = 0; i < $2; i++)); do
        printf -v byte '%s%02x' "$1" $(((i * $3 + $4) % 256))
        bytes+=$byte
    done
    printf '%s' "$bytes"
}

expected() {
    local n long truncated
    echo "rfc4231-1 $(mac "$(repeated 0b 20)" 'Hi There')"
    echo "rfc4231-2 $(mac "$(printf Jefe | od -An -v -tx1 | tr -d ' \n')" 'what do ya want for nothing?')"
    echo "rfc4231-3 $(mac "$(repeated aa 20)" "$(repeated '\xdd' 50)")"
    echo "rfc4231-4 $(mac "$(pattern '' 25 1 1)" "$(repeated '\xcd' 50)")"
    truncated=$(mac "$(repeated 0c 20)" 'Test With Truncation')
    echo "rfc4231-5 ${truncated:0:32}"
    long=$(repeated aa 131)
    echo "rfc4231-6 $(mac "$long" 'Test Using Larger Than Block-Size Key - Hash Key First')"
    echo "rfc4231-7 $(mac "$long" "This is a test using a larger than block-size key and a larger than block-size data. The key needs to be hashed before \
being used by the HMAC algorithm.")"

    echo 'key-0 refused 2'
    for ((n = 1; n <= 256; n++)); do
        echo "key-$n $(mac "$(pattern '' "$n" 7 $((5 * n)))" "$(pattern '\x' $((7 * n % 201)) 7 $((13 * n)))")"
    done
    echo 'key-257 refused 2'
}

if [ ! -f "$file" ]; then
    echo "$file is missing"
    exit 1
fi
if ! printf '%s\n' "${rfc[@]}" | diff <(sed -n 's/^rfc4231-[1-7] //p' "$file") -; then
    echo "$file differs from what RFC 4231 prints"
    exit 1
fi
if ! expected | diff "$file" -; then
    echo "$file differs from what openssl gives"
    exit 1
fi
echo "$((${#rfc[@]} + 256)) macs agree with openssl, and ${#rfc[@]} of them with RFC 4231; 2 keys are refused"
