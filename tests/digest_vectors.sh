#!/usr/bin/env bash
# R13: makes the expected output of the program digest_vectors again, with sha256sum, and compares the file that the program
# is held to: NIST's examples for FIPS 180-4, its additional ones, and a message of each length up to 300 bytes.
set -euo pipefail
cd "$(dirname "$0")/.."

file=crates/digest_vectors/stdout

# One line: the name, and the digest of what stands on standard input.
vector() {
    local sum
    sum=$(sha256sum)
    printf '%s %s\n' "$1" "${sum%% *}"
}

# COUNT bytes, each CHARACTER.
repeated() {
    head -c "$2" /dev/zero | tr '\0' "$1"
}

# LENGTH bytes, byte i being (i * 7 + LENGTH * 13) mod 256.
message() {
    local length=$1 escapes='' byte i
    for ((i = 0; i < length; i++)); do
        printf -v byte '\\x%02x' $(((i * 7 + length * 13) % 256))
        escapes+=$byte
    done
    printf '%b' "$escapes"
}

expected() {
    local length
    printf '' | vector empty
    printf abc | vector abc
    printf abcdbcdecdefdefgefghfghighijhijkijkljklmklmnlmnomnopnopq | vector fips-448
    printf %s abcdefghbcdefghicdefghijdefghijkefghijklfghijklmghijklmn \
        hijklmnoijklmnopjklmnopqklmnopqrlmnopqrsmnopqrstnopqrstu | vector fips-896
    repeated a 1000000 | vector million-a

    printf '\xbd' | vector nist-bd
    printf '\xc9\x8c\x8e\x55' | vector nist-c98c8e55
    for length in 55 56 57 64 1000; do
        repeated '\0' "$length" | vector "zeros-$length"
    done
    repeated A 1000 | vector nist-a-1000
    repeated U 1005 | vector nist-u-1005
    repeated '\0' 1000000 | vector zeros-1000000

    for ((length = 0; length <= 300; length++)); do
        message "$length" | vector "length-$length"
    done
}

if [ ! -f "$file" ]; then
    echo "$file is missing"
    exit 1
fi
if ! expected | diff "$file" -; then
    echo "$file differs from what sha256sum gives"
    exit 1
fi
echo "$(wc -l <"$file") vectors agree with sha256sum"
