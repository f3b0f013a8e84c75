#!/bin/sh
# compare.sh PROGRAM CALLER..: runs each caller and the proved program, check_host, received_line,
# lint_record or add_lifetimes, on the same inputs, and compares what they print. The inputs are the
# program's stored one and those made below; INPUTS may name further files. The status is 0 only if
# all agree.
set -u
cd "$(dirname "$0")/.." || exit 2
program=$1
shift
proved=target/bin/$program
[ -x "$proved" ] || { echo "compare.sh: no $proved: run 'make programs'" >&2; exit 2; }
dir=$(mktemp -d) || exit 2
trap 'rm -rf "$dir"' EXIT

# mail LINE..: client, domain, sender, HELO, receiver and t of check_host, or result, client, sender,
# HELO, receiver and identity of received_line, or name and record of lint_record
mail() { for line in "$@"; do printf '%s\n' "$line"; done; }
usual() {
    mail 192.0.2.129 example.com user@example.com mail.example.com mx.relay.example 1700000000
}
# repeat N TEXT: the text N times
repeat() { i=0; while [ "$i" -lt "$1" ]; do printf '%s' "$2"; i=$((i + 1)); done; }
# a TXT entry of example.com with the record `v=spf1 -all`, for 300 seconds, and one of status 3
record() { printf '\040\000\020\000\000\054\001\000\000\013example.com\013\000v=spf1 -all'; }
gone() { printf '\023\000\020\000\003\074\000\000\000\013example.com'; }
# one with an explanation behind a void answer, for the longest time, that answer, for 100 seconds,
# and the explanation's text
explained() {
    printf '\071\000\020\000\000\377\377\377\377\013example.com'
    printf '\044\000v=spf1 exists:g.x -all exp=e.example'
    void
}
void() { printf '\013\000\001\000\000\144\000\000\000\003g.x'; }
text() { printf '\033\000\020\000\000\007\000\000\000\011e.example\010\000for %%{d}'; }
# an entry for the longest time, and one as it was before W-209
longest() { printf '\040\000\020\000\000\377\377\377\377\013example.com\013\000v=spf1 ~all'; }
old_record() { printf '\034\000\020\000\000\013example.com\013\000v=spf1 -all'; }

checks() {
    : >"$dir/empty"
    usual >"$dir/no_table"
    { usual; record; } >"$dir/fail"
    { usual; explained; } >"$dir/fail_wanting_text"
    { usual; explained; text; } >"$dir/fail_with_text"
    { usual; explained; text; record; } >"$dir/fail_repeated"
    { usual; gone; } >"$dir/none"
    { usual; longest; } >"$dir/longest_lifetime"
    { usual; old_record; } >"$dir/old_layout"
    { usual; record; gone; } >"$dir/repeated"
    { usual; record; printf '\001'; } >"$dir/malformed"
    { usual; repeat 4097 0123456789abcdef; } >"$dir/long_table"
    { mail ::ffff:192.0.2.129 example.com user@example.com '' '' 007; record; } >"$dir/mapped"
    { mail 2001:db8::1 example.com. @example.com h.example '' 0; record; } >"$dir/six"
    mail 192.0.2.01 example.com user@example.com h '' 7 >"$dir/bad_client"
    mail 192.0.2.129 example.com user@example.com h '' +7 >"$dir/bad_t"
    mail 192.0.2.129 example.com user@example.com h '' 18446744073709551616 >"$dir/large_t"
    mail 192.0.2.129 example.com user@example.com h '' 00018446744073709551615 >"$dir/largest_t"
    mail 192.0.2.129 example.com '' h '' 7 >"$dir/no_sender"
    mail 192.0.2.129 example.com u@x 'a b' '' 7 >"$dir/bad_helo"
    mail 192.0.2.129 "$(repeat 128 a.)" u@x h '' 7 >"$dir/long_domain"
    mail 192.0.2.129 "$(repeat 126 a.)b" u@x h '' 7 >"$dir/longest_name"
    printf '192.0.2.129\nexample.com\nu@x\n\n\n7' >"$dir/no_last_newline"
}

# odd: a sender with quotes and backslashes
odd='"a b"\\@x.y'
# line REST: a Received-SPF line that begins so
line() { printf 'Received-SPF: pass %s\r\n' "$1"; }
lines() {
    : >"$dir/empty"
    for result in none neutral pass fail softfail temperror permerror; do
        mail "$result" 192.0.2.1 user@example.com h.example mx.example mailfrom >"$dir/$result"
        "$proved" <"$dir/$result" >"$dir/read_$result"
    done
    mail pass ::ffff:192.0.2.1 "$odd" '' '' helo >"$dir/mapped"
    mail pass 2001:db8::1 @x.y 'a..b' '[192.0.2.1]' helo >"$dir/six"
    for input in mapped six; do "$proved" <"$dir/$input" >"$dir/read_$input"; done
    mail wanting 192.0.2.1 u@x h r helo >"$dir/bad_word"
    mail Pass 192.0.2.1 u@x h r helo >"$dir/upper_word"
    mail pass 192.0.2.01 u@x h r helo >"$dir/bad_client"
    mail pass 192.0.2.1 u@x h r mail >"$dir/bad_identity"
    mail pass 192.0.2.1 u@x h r helo more >"$dir/seventh"
    mail pass 192.0.2.1 u@x h r helo '' >"$dir/empty_seventh"
    printf 'pass\n192.0.2.1\nu@x\nh\nr\nhelo' >"$dir/no_last_newline"
    printf 'pass\r\n192.0.2.1\r\nu@x\r\nh\r\nr\r\nhelo\r\n' >"$dir/crlf"
    printf 'pass\n192.0.2.1\nu@x\nh\nr\n' >"$dir/no_identity"
    mail pass 192.0.2.1 '' 'a b' r helo >"$dir/no_sender"
    mail pass 192.0.2.1 u@x 'a b' r helo >"$dir/bad_helo"
    mail pass 192.0.2.1 "$(repeat 321 y)" h r helo >"$dir/long_sender"
    mail pass 192.0.2.1 "$(repeat 320 '"')" "$(repeat 255 '"')" "$(repeat 255 '"')" helo \
        >"$dir/long_line"
    mail pass 192.0.2.1 "$(repeat 4096 y)" h r helo >"$dir/long_input"
    line 'receiver=a; client-ip=192.0.2.1; envelope-from=a; helo=a; identity=helo' >"$dir/read"
    line 'receiver="a"; client-ip=192.0.2.1; envelope-from=a; helo=a; identity=helo' \
        >"$dir/read_quoted"
    printf 'Received-SPF: pass\n' >"$dir/read_short"
    printf 'Received-SPF:' >"$dir/read_name"
    { printf 'Received-SPF: '; repeat 5000 y; } >"$dir/read_long"
    { cat "$dir/read"; cat "$dir/read"; } >"$dir/read_twice"
}

# lint NAME RECORD: an input of lint_record with the name example.com
lint() { mail example.com "$2" >"$dir/$1"; }
records() {
    : >"$dir/empty"
    lint ok 'v=spf1 mx ip4:192.0.2.0/24 -all'
    lint every 'v=spf1 +all exp=a.b ptr:%{p} redirect=a.b ip4:10.0.0.0/7 ip4:10.1.0.0/7 all'
    lint modifier 'v=spf1 x=%{P} y=%%{p} -all'
    lint two_ends 'v=spf1 -all ~all redirect=a.b ALL'
    lint no_end 'v=spf1'
    lint spaces 'v=spf1  exp=a.b  '
    lint short 'v=spf1 a/7//18 mx:b.c/8//19 mx//0 ip6:::/18 ip6:2001::/19 ?all'
    lint equal 'v=spf1 ip4:10.0.0.1 -ip4:10.0.0.1/32 ip6:::ffff:10.0.0.1 ip6:0::FFFF:a00:1/128 -all'
    lint version 'v=spf10 -all'
    lint other_version 'spf2.0/pra -all'
    lint bad_term 'v=spf1 ptr ip4:1.2.3.4/33'
    lint repeated 'v=spf1 exp=a.b exp=a.b'
    lint no_record ''
    lint newlines 'v=spf1 -all

'
    printf 'example.com' >"$dir/no_newline"
    printf 'example.com\n' >"$dir/one_newline"
    printf 'example.com\nv=spf1 ptr' >"$dir/no_last_newline"
    printf '\nv=spf1 ptr\n' >"$dir/no_name"
    printf '\n\n' >"$dir/newlines_alone"
    printf 'example.com\r\nv=spf1 -all\r\n' >"$dir/crlf"
    printf 'a\000b\200\nv=spf1 a\000b\n' >"$dir/odd_bytes"
    mail example.com "v=spf1 -all$(repeat 428 ' ')" >"$dir/long"
    mail example.co "v=spf1 -all$(repeat 428 ' ')" >"$dir/not_long"
    mail a "v=spf1$(repeat 254 ' ptr')" >"$dir/most"
    mail a "v=spf1$(repeat 255 ' ptr')" >"$dir/too_many"
    mail "$(repeat 255 y)" 'v=spf1 -all' >"$dir/longest_name"
    mail "$(repeat 256 y)" 'v=spf1 foo' >"$dir/long_name"
    repeat 5000 y >"$dir/long_line"
    mail "$(repeat 255 y)" "v=spf1 -all$(repeat 4085 ' ')" >"$dir/longest"
    { mail "$(repeat 255 y)" "v=spf1 -all$(repeat 4085 ' ')"; echo; } >"$dir/long_record"
    mail a "v=spf1 -all$(repeat 9000 ' ')" >"$dir/long_input"
}

# octal N: the 2 bytes of a length, for printf
octal() { printf '\\%03o\\%03o' $(($1 % 256)) $(($1 / 256)); }
# big N: an old table of N bytes, one TXT entry of 15 texts of 4,096 bytes and one more
big() {
    # shellcheck disable=SC2059
    printf "$(octal $(($1 - 2)))"
    printf '\020\000\000\001a'
    for _ in 1 2 3 4 5 6 7 8 9 10 11 12 13 14 15; do
        printf '\000\020'
        head -c 4096 /dev/zero | tr '\000' x
    done
    # shellcheck disable=SC2059
    printf "$(octal $(($1 - 61479)))"
    head -c $(($1 - 61479)) /dev/zero | tr '\000' x
}
# many N: N old entries of 10 bytes
many() {
    i=0
    while [ "$i" -lt "$1" ]; do
        printf '\010\000\001\000\003\004n%03d' "$i"
        i=$((i + 1))
    done
}
rewritings() {
    : >"$dir/empty"
    old_record >"$dir/one"
    { old_record; printf '\005\000\001\000\000\001a'; } >"$dir/two"
    { old_record; old_record; } >"$dir/repeated"
    { old_record; old_record; echo; } >"$dir/repeated_first"
    { old_record; echo; } >"$dir/newline"
    { old_record; printf '\005\000\001\000\000\001'; } >"$dir/malformed"
    # the last byte of an A entry's only item is 10
    printf '\013\000\001\000\000\001a\004\000\001\002\003\n' >"$dir/last_byte"
    record >"$dir/new_layout"
    many 512 >"$dir/most_entries"
    many 513 >"$dir/too_many"
    for n in 65530 65531 65532 65535 65536 65537; do big "$n" >"$dir/big_$n"; done
    { big 65537; big 65537; } >"$dir/long_input"
    head -c 65535 /dev/zero >"$dir/zeros"
    head -c 65536 /dev/zero >"$dir/more_zeros"
}

cp "crates/$program/stdin" "$dir/stored"
case $program in
check_host) checks ;;
received_line) lines ;;
lint_record) records ;;
add_lifetimes) rewritings ;;
*) echo "compare.sh: no inputs for $program" >&2; exit 2 ;;
esac

agree=0 differ=0
for input in "$dir"/[a-z]* ${INPUTS-}; do
    "$proved" <"$input" >"$dir/.proved"
    for caller in "$@"; do
        if "$caller" <"$input" >"$dir/.got" && cmp -s "$dir/.proved" "$dir/.got"; then
            agree=$((agree + 1))
        else
            differ=$((differ + 1))
            echo "differs: $caller on $(basename "$input")"
        fi
    done
done
echo "$program: $agree agree, $differ differ"
[ "$differ" -eq 0 ] && [ "$agree" -gt 0 ]
