#!/bin/sh
# install_test.sh: installs into a temporary folder, builds relay.c with what pkg-config says and
# nothing else, and compares what it prints with what RFC 7208 gives for its zone, by hand below.
# Also compiles the header as C99 and C++ with all warnings, looks at the manual page, and removes
# the installation. CC, CXX and LIB may name compilers and the library. The status is 0 only if all
# is well.
set -eu
cd "$(dirname "$0")"
dir=$(mktemp -d)
trap 'rm -rf "$dir"' EXIT
cc=${CC:-cc} cxx=${CXX:-c++} prefix=/opt/talavorn
warnings='-Wall -Wextra -Wpedantic -Wconversion -Werror'

run_make() {
    make -s --no-print-directory "$1" PREFIX=$prefix DESTDIR="$dir" MANDIR=$prefix/man \
        ${LIB:+"LIB=$LIB"}
}

# $cc and $cxx may hold options
build() {
    # shellcheck disable=SC2086
    "$@" $warnings
}

run_make install
export PKG_CONFIG_PATH="$dir$prefix/lib/pkgconfig" PKG_CONFIG_SYSROOT_DIR="$dir"
flags=$(pkg-config --cflags talavorn) libs=$(pkg-config --libs talavorn)
version=$(sed -n 's/^.define TALAVORN_VERSION "\(.*\)"/\1/p' talavorn.h)
[ "$(pkg-config --modversion talavorn)" = "$version" ]
grep -q "\"Talavorn $version\"" talavorn.3 || { echo "talavorn.3: not $version"; exit 1; }

cp relay.c cache.h "$dir"
# shellcheck disable=SC2086
(cd "$dir" && build $cc -std=c99 $flags relay.c $libs -o relay)
"$dir/relay" >"$dir/printed"
cat >"$dir/expected" <<'END'
a relay that sends the text
client 192.0.2.1
  TXT example.com
  TXT _spf.example.net
  pass, lookups 1, voids 0, lifetime 300
  Received-SPF: pass receiver=mx.relay.example; client-ip=192.0.2.1; envelope-from="user@example.com"; helo=mail.example.com; identity=mailfrom
  questions: 2
client 198.51.100.7
  TXT example.com
  TXT _spf.example.net
  MX example.com
  A mail.example.com
  pass, lookups 2, voids 0, lifetime 120
  Received-SPF: pass receiver=mx.relay.example; client-ip=198.51.100.7; envelope-from="user@example.com"; helo=mail.example.com; identity=mailfrom
  questions: 4
client 203.0.113.9
  TXT example.com
  TXT _spf.example.net
  MX example.com
  A mail.example.com
  A gone.example.com
  fail, lookups 2, voids 1, lifetime 60
  Received-SPF: fail receiver=mx.relay.example; client-ip=203.0.113.9; envelope-from="user@example.com"; helo=mail.example.com; identity=mailfrom
  TXT why.example.com
  the domain example.com explains: 203.0.113.9 may not send mail for example.com
  questions: 6
client 2001:db8::1
  TXT example.com
  TXT _spf.example.net
  MX example.com
  AAAA mail.example.com
  AAAA gone.example.com
  fail, lookups 2, voids 2, lifetime 60
  Received-SPF: fail receiver=mx.relay.example; client-ip="2001:db8:0:0:0:0:0:1"; envelope-from="user@example.com"; helo=mail.example.com; identity=mailfrom
  TXT why.example.com
  the domain example.com explains: 2001:db8:0:0:0:0:0:1 may not send mail for example.com
  questions: 6
a relay that sends no text
client 192.0.2.1
  TXT example.com
  TXT _spf.example.net
  pass, lookups 1, voids 0, lifetime 300
  Received-SPF: pass receiver=mx.relay.example; client-ip=192.0.2.1; envelope-from="user@example.com"; helo=mail.example.com; identity=mailfrom
  questions: 2
client 198.51.100.7
  TXT example.com
  TXT _spf.example.net
  MX example.com
  A mail.example.com
  pass, lookups 2, voids 0, lifetime 120
  Received-SPF: pass receiver=mx.relay.example; client-ip=198.51.100.7; envelope-from="user@example.com"; helo=mail.example.com; identity=mailfrom
  questions: 4
client 203.0.113.9
  TXT example.com
  TXT _spf.example.net
  MX example.com
  A mail.example.com
  A gone.example.com
  fail, lookups 2, voids 1, lifetime 60
  Received-SPF: fail receiver=mx.relay.example; client-ip=203.0.113.9; envelope-from="user@example.com"; helo=mail.example.com; identity=mailfrom
  questions: 5
client 2001:db8::1
  TXT example.com
  TXT _spf.example.net
  MX example.com
  AAAA mail.example.com
  AAAA gone.example.com
  fail, lookups 2, voids 2, lifetime 60
  Received-SPF: fail receiver=mx.relay.example; client-ip="2001:db8:0:0:0:0:0:1"; envelope-from="user@example.com"; helo=mail.example.com; identity=mailfrom
  questions: 5
client 203.0.113.9, parked for the explanation alone: no text is sent
  fail, lookups 2, voids 1, lifetime 60
  Received-SPF: fail receiver=mx.relay.example; client-ip=203.0.113.9; envelope-from="user@example.com"; helo=mail.example.com; identity=mailfrom
  questions: 0
client 203.0.113.9, parked for the explanation alone: the text is sent
  fail, lookups 2, voids 1, lifetime 60
  Received-SPF: fail receiver=mx.relay.example; client-ip=203.0.113.9; envelope-from="user@example.com"; helo=mail.example.com; identity=mailfrom
  TXT why.example.com
  the domain example.com explains: 203.0.113.9 may not send mail for example.com
  questions: 1
a relay that keeps decisions
client 192.0.2.1, second 0
  TXT example.com
  TXT _spf.example.net
  pass, lifetime 300, questions: 2
client 192.0.2.1, second 1
  pass, kept, seconds left: 299
client 203.0.113.9, second 1
  TXT example.com
  TXT _spf.example.net
  MX example.com
  A mail.example.com
  A gone.example.com
  fail, lifetime 60, questions: 5
client 203.0.113.9, second 60
  fail, kept, seconds left: 1
client 203.0.113.9, second 61
  TXT example.com
  TXT _spf.example.net
  MX example.com
  A mail.example.com
  A gone.example.com
  fail, lifetime 60, questions: 5
client 203.0.113.9, second 62: the text is sent
  TXT example.com
  TXT _spf.example.net
  MX example.com
  A mail.example.com
  A gone.example.com
  TXT why.example.com
  fail, lifetime 60, questions: 6
  the domain example.com explains: 203.0.113.9 may not send mail for example.com
client 192.0.2.1, second 299
  pass, kept, seconds left: 1
client 192.0.2.1, second 300
  TXT example.com
  TXT _spf.example.net
  pass, lifetime 300, questions: 2
END
diff "$dir/expected" "$dir/printed"
echo 'relay.c: built with pkg-config, prints what it should'

# the header alone, and a program in C++ over the whole of it
printf '#include <talavorn.h>\nint main(void) { return 0; }\n' >"$dir/header.c"
cat >"$dir/header.cpp" <<'END'
#include <talavorn.h>
#include <cstring>

int main()
{
    const unsigned char client[4] = { 192, 0, 2, 1 };
    unsigned char table[100], buffer[50];
    std::size_t size = 0;
    talavorn_mail mail = { talavorn_bytes(client, 4), talavorn_text("example.com"),
                           talavorn_text("user@example.com"), talavorn_text("h.example"),
                           talavorn_text(nullptr), 0 };
    talavorn_answer a = talavorn_check(&mail, table, size);
    if (a.number != TALAVORN_WANTING || std::strcmp(a.name, "example.com") != 0)
        return 1;
    talavorn_items items = talavorn_items_in(buffer, sizeof buffer);
    talavorn_item_txt(&items, talavorn_text("v=spf1 -ip4:192.0.2.0/24"));
    if (talavorn_add(&a, TALAVORN_ANSWERED, 60, &items, table, sizeof table, &size) != 0)
        return 1;
    char text[501];
    a = talavorn_check(&mail, table, size);
    if (a.lifetime != 60)
        return 1;
    if (talavorn_fail_text(&mail, &a, table, size, text).text_len != 0 || text[0] != 0)
        return 1;
    char line[1501], value[321];
    std::size_t values[TALAVORN_LINE_VALUES];
    std::size_t n = talavorn_received(&mail, a.number, TALAVORN_IDENTITY_MAILFROM, line);
    if (talavorn_read_line(line, n, values) != 0 || values[TALAVORN_LINE_RESULT] != TALAVORN_FAIL)
        return 1;
    if (talavorn_line_value(line, values, TALAVORN_LINE_SENDER, value) != 16
        || std::strcmp(value, "user@example.com") != 0)
        return 1;
    unsigned char list[TALAVORN_HOUSE_LIST];
    if (talavorn_house_rules("a.b", 3, "v=spf1 ?all a", 13, list, sizeof list, &n) != 0 || n != 1)
        return 1;
    talavorn_breach b = talavorn_breach_at(list, 0);
    if (b.rule != TALAVORN_RULE_AFTER_ALL || b.place != 12
        || std::strcmp(talavorn_rule_name(b.rule), "no mechanism after the first all") != 0)
        return 1;
    if (talavorn_add_lifetimes("", 0, table, sizeof table, &n) != 0 || n != 0)
        return 1;
    return std::strcmp(talavorn_result_name(a.number), "fail");
}
END
# shellcheck disable=SC2086
{
    build $cc -std=c99 $flags -c "$dir/header.c" -o "$dir/header.o"
    build $cxx -std=c++11 $flags "$dir/header.cpp" $libs -o "$dir/header"
}
"$dir/header"
echo 'talavorn.h: C99 and C++11 without warnings'

if command -v groff >/dev/null; then
    groff -man -Tutf8 -ww "$dir$prefix/man/man3/talavorn.3" >/dev/null 2>"$dir/man"
    [ ! -s "$dir/man" ] || { cat "$dir/man"; exit 1; }
    echo 'talavorn(3): no warnings'
fi

run_make uninstall
[ -z "$(find "$dir$prefix" -type f)" ]
echo 'install, uninstall: as they should be'
