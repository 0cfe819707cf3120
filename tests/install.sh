#!/usr/bin/env bash
# Tries `make install`: into a folder of its own, where programs, example hosts and man pages are then used as a user would, with nothing of
# the source tree; then `make dist`, unpacked elsewhere. The last line counts the trials, `N passed, M failed`. Use: tests/install.sh
set -uo pipefail
cd "$(dirname "$0")/.." || exit
tree=$PWD
room=$(mktemp -d)
trap 'rm -rf "$room"' EXIT
prefix=$room/prefix
unset PREFIX LIBDIR DESTDIR
passed=0
failed=0

fail() {
    echo "FAILED: $*"
    failed=$((failed + 1))
}

end() {
    echo "$passed passed, $failed failed"
    [ "$failed" -eq 0 ] && [ "$passed" -gt 0 ]
    exit
}

# A trial: the command ends well, else what it said is shown.
trial() { # WHAT COMMAND..
    local what=$1
    shift
    if "$@" >"$room/log" 2>&1; then
        echo "$what"
        passed=$((passed + 1))
    else
        fail "$what"
        sed 's/^/    /' "$room/log"
    fi
}

# The command prints this and nothing else.
prints() { # TEXT COMMAND..
    local text=$1
    shift
    diff <(printf '%s' "${text:+$text$'\n'}") <("$@" 2>&1)
}

# In the example's folder the program prints the example's answer.
answers() { # COMMAND..
    "$@" <budget | diff - answer
}

# `make help` prints every `make GOAL` of the table in README.md
helped() {
    local goal
    for goal in $(grep '^| `make' README.md | cut -d'|' -f2 | grep -oE '`make [a-z-]+' | sed 's/`make //'); do
        make --silent help | grep -q "make $goal\b" || { echo "make $goal" && return 1; }
    done
}

# ---- what a file says of itself

declared() { grep -oE 'forkhemit_[a-z_]+\(' "$1" | tr -d '(' | sort -u; }
exported() { nm -D --defined-only "$1" | awk '{ print $3 }' | sort; }
wanted() { nm -D --undefined-only "$1" | awk '{ sub(/@.*/, "", $2); print $2 }' | sort; }
soname() { readelf -d "$1" | sed -n 's/.*soname: \[\(.*\)\]/\1/p'; }
libraries() { readelf -d "$1" | sed -n 's/.*NEEDED.*\[\(.*\)\]/\1/p'; }
titled() { sed -n 's/^\.TH [A-Z-]* 1 "" "Forkhemit \([^"]*\)".*/\1/p' "$1"; }

for tool in make cc c++ rustc python3 pkg-config groff nm readelf valgrind; do
    command -v "$tool" >/dev/null || fail "$tool is missing"
done
if [ "$failed" -gt 0 ]; then end; fi

# ---- installed

# whatever the mask, others can read it
masked() { (umask 077 && make --silent install PREFIX="$prefix"); }
trial 'installed' masked
if [ "$failed" -gt 0 ]; then end; fi
trial 'everybody can read all of it' prints '' find "$prefix" ! -type l ! -perm -o=r -o -type d ! -perm -o=x
relative() { ! make --silent install PREFIX=prefix && [ ! -e prefix ]; }
trial 'a PREFIX that is no whole path is turned back' relative
# A path with a blank, or with what a shell takes otherwise, is refused whole: nothing is made, and nothing taken away.
mkdir -p "$room/half/share/doc/forkhemit" "$room/half way"
touch "$room/half/share/doc/forkhemit/kept"
kept() { ! "$@" && [ -e "$room/half/share/doc/forkhemit/kept" ] && [ -z "$(ls -A "$room/half way")" ]; }
for goal in install uninstall; do
    for path in "$room/half way" "$room/half way " "$room/half;way" "$room/half'way" "$room/h*f" "$room/half"$'\t'"way"; do
        trial "$goal: PREFIX=${path#"$room/"} is turned back" kept make --silent "$goal" PREFIX="$path"
        trial "$goal: DESTDIR=${path#"$room/"} is turned back" kept make --silent "$goal" PREFIX=/usr DESTDIR="$path"
        trial "$goal: LIBDIR=${path#"$room/"} is turned back" kept make --silent "$goal" PREFIX="$prefix" LIBDIR="$path"
    done
done
trial 'installed below DESTDIR' make --silent install PREFIX="$prefix" DESTDIR="$room/stage"
trial 'with the same files' diff -r --no-dereference "$prefix" "$room/stage$prefix"
trial 'nothing is left to be filled in' prints '' grep -rnI '@[A-Z]*@' "$prefix"

export PKG_CONFIG_LIBDIR=$prefix/lib/pkgconfig PKG_CONFIG_PATH='' LD_LIBRARY_PATH=$prefix/lib
read -ra compiled < <(pkg-config --cflags forkhemit)
read -ra linked < <(pkg-config --libs forkhemit)
library=$(pkg-config --variable=libdir forkhemit)/libforkhemit
strict=(-Wall -Wextra -Wpedantic -Werror "${compiled[@]}")

# ---- one version

version=$(sed -n 's/^## \([0-9]*\.[0-9]*\.[0-9]*\)\. .*/\1/p' CHANGES.md | head -n 1)
cat >"$room/version.c" <<'EOF'
#include <forkhemit.h>
#include <stdio.h>
int main(void)
{
    if (forkhemit_version() != FORKHEMIT_VERSION)
        puts("the library's version is another one");
    return printf("%d.%d.%d\n", FORKHEMIT_VERSION / 10000, FORKHEMIT_VERSION / 100 % 100, FORKHEMIT_VERSION % 100) < 0;
}
EOF
trial 'a program that prints the version is built' cc "${strict[@]}" -o "$room/version" "$room/version.c" "${linked[@]}"
trial "$version in CHANGES.md, in the header and in the library" prints "$version" "$room/version"
trial 'in README.md' grep -qF "This is version $version " README.md
trial 'in the pkg-config file' prints "$version" pkg-config --modversion forkhemit
trial 'its first number in the soname' prints "libforkhemit.so.${version%%.*}" soname "$library.so"
trial "in the shared library's name" cmp "$library.so.${version%%.*}" "$library.so.$version"
for program in forkhemit-pair forkhemit-circuit forkhemit-whole forkhemit-plan; do
    page=$prefix/share/man/man1/$program.1
    trial "in the page of $program" prints "$version" titled "$page"
    trial 'which is well-formed' prints '' groff -man -Tutf8 -ww -z "$page"
done

# ---- the shared library

trial 'it has the functions of the header and no other symbol' prints "$(declared "$prefix/include/forkhemit.h")" exported "$library.so"
trial "it needs C's library alone" prints libc.so.6 libraries "$library.so"
trial 'and of that three functions' prints $'memcpy\nmemmove\nmemset' wanted "$library.so"
cp tests/unset.c "$room"
trial 'calls over unset buffers are built' cc -std=c11 "${strict[@]}" -o "$room/unset" "$room/unset.c" "${linked[@]}"
trial 'no unset byte decides anything' valgrind --quiet --error-exitcode=9 "$room/unset"

# ---- programs and hosts, from the installed examples

cd "$prefix/share/doc/forkhemit/examples/harbour" || end
host=../host/host
texts=(left.cnf right.cnf public.cnf "$(cat budget)")
smallest() { echo 1 1 1 0 | "$prefix/bin/forkhemit-circuit" | sed -n 2,3p; }
through() { # BUDGET, document 01's example
    mkdir -p "$room/small"
    printf 'p cnf 2 1\n1 2 0\n' >"$room/small/left.cnf"
    printf 'p cnf 2 1\n-1 0\n' >"$room/small/right.cnf"
    printf 'p cnf 2 0\n' >"$room/small/public.cnf"
    (cd "$room/small" && echo "$1" | "$prefix/bin/forkhemit-whole")
}
harbour() { "$prefix/bin/forkhemit-whole" <budget; }
trial 'the pair program answers' answers "$prefix/bin/forkhemit-pair"
trial 'the circuit program prints' prints $'3 2 2 9\n2 9 1' smallest
trial 'the whole program answers with its budget for the count' prints $'c steps 9\ns SATISFIABLE\nv -1 2 0' through 0009
trial 'and takes no larger one' prints $'c refused 23\ns UNKNOWN' through 65536
trial 'nor the example, which is too large' prints $'c refused 7\ns UNKNOWN' harbour
# as the man pages promise
full() { echo "$2" | "$prefix/bin/forkhemit-$1" >/dev/full; }
for program in pair circuit whole; do
    trial "$program ends with status 0 where its output cannot be written" full "$program" '1 1 1 0'
done

planner=(env -u LD_LIBRARY_PATH "$prefix/bin/forkhemit-plan")
roster='2 Ahlgren late, 5 Brandt late, 7 Costa early, 12 Duarte night'
followed() { "${planner[@]}" follow | tail -n 1; }
trial "the planner's tool finds the pair program beside it" prints "roster 1: $roster"$'\nno more rosters' "${planner[@]}" rosters
trial 'the desk tool' prints "roster: $roster" followed
trial 'and the library' prints 'turns/by-turns.qdimacs: the e side can force a roster, and begins with 1 Ahlgren early on' "${planner[@]}" force turns/by-turns.qdimacs
trial 'a host in C with the shared library is built' cc -std=c11 "${strict[@]}" -o "$room/shared" $host.c "${linked[@]}"
trial 'asks for it by its soname' prints "libforkhemit.so.${version%%.*}"$'\nlibc.so.6' libraries "$room/shared"
trial 'and answers' answers "$room/shared" "${texts[@]}"
trial 'a host in C with the archive is built' cc -std=c11 "${strict[@]}" -static -o "$room/static" $host.c "${linked[@]}"
trial 'and answers' answers env -u LD_LIBRARY_PATH "$room/static" "${texts[@]}"
trial 'a host in Rust with the archive is built' rustc --edition 2021 -D warnings -o "$room/rust" $host.rs -L "native=${library%/*}"
trial 'and answers' answers env -u LD_LIBRARY_PATH "$room/rust" "${texts[@]}"
export PYTHONPATH=$prefix/share/forkhemit/python
trial 'the module for Python stands where pkg-config says' prints "$PYTHONPATH" pkg-config --variable=pythondir forkhemit
trial 'a host in Python answers' answers python3 -B $host.py "${texts[@]}"
trial 'with the library beside the module' answers env -u LD_LIBRARY_PATH python3 -B $host.py "${texts[@]}"
refused() { python3 -B $host.py none.cnf right.cnf public.cnf 9 2>/dev/null; }
trial 'and is refused a text that is missing' prints $'c refused 5\ns UNKNOWN' refused
backend=../backend
trial 'the kit for back ends is built' cc -std=c11 "${strict[@]}" -o "$room/backend" $backend/backend.c "${linked[@]}"
drilled() { sh $backend/drill.sh "$room/backend" "$prefix/bin/forkhemit-pair" "$PWD" "$room/drill" | tail -n 3 | diff - answer; }
trial 'and a drill with it gives the answer' drilled
trial 'the header is C++ too' c++ -x c++ "${strict[@]}" -fsyntax-only -include forkhemit.h /dev/null
cd "$OLDPWD" || end

# ---- the module for Python, as it is installed

trial 'the module is held to the header' env FORKHEMIT_HEADER="$prefix/include/forkhemit.h" python3 -B tests/module.py

# ---- taken away

trial 'uninstalled' make --silent uninstall PREFIX="$prefix"
trial 'with no file left' prints '' find "$prefix" ! -type d

# ---- the archive to unpack anywhere

unset PKG_CONFIG_LIBDIR LD_LIBRARY_PATH PYTHONPATH
packed=forkhemit-$version-x86_64-linux.tar.gz
trial 'packed' make --silent dist
cp "target/dist/$packed" "target/dist/$packed.sha256" "$room"
trial 'packed once more' make --silent dist
trial 'to the same bytes' cmp "target/dist/$packed" "$room/$packed"
cd "$room" || end
trial 'its checksum' sha256sum --check --quiet "$packed.sha256"
mkdir "un packed"
cd "un packed" || end
trial 'unpacked' tar -xzf "$room/$packed"
cd "forkhemit-$version" || end
unpacked=$PWD
summed() { cut -c 67- SHA256SUMS | sort; }
trial 'the checksums of its files' sha256sum --check --quiet SHA256SUMS
trial 'which are all of its files' prints "$(find . -type f ! -name SHA256SUMS | sort)" summed
trial 'nothing in it names the tree that it was made in' prints '' grep -rlF "$tree" .
cd share/doc/forkhemit/examples/harbour || end
trial 'its pair program answers' answers "$unpacked/bin/forkhemit-pair"
export PKG_CONFIG_PATH=$unpacked/lib/pkgconfig
flags() { pkg-config "$1" forkhemit | xargs printf '%s\n'; }
mapfile -t compiled < <(flags --cflags)
mapfile -t linked < <(flags --libs)
trial 'a host with its shared library is built' cc -std=c11 -Wall -Wextra -Werror "${compiled[@]}" -o "$room/dist-shared" $host.c "${linked[@]}"
trial 'and answers' answers env LD_LIBRARY_PATH="$unpacked/lib" "$room/dist-shared" "${texts[@]}"
trial 'a host with its archive is built' cc -std=c11 -Wall -Wextra -Werror -I"$unpacked/include" -o "$room/dist-static" $host.c "$unpacked/lib/libforkhemit.a"
trial 'and answers' answers "$room/dist-static" "${texts[@]}"
trial 'a host in Python answers' answers env PYTHONPATH="$unpacked/share/forkhemit/python" python3 -B $host.py "${texts[@]}"
cd "$tree" || end

# ---- without the kit

# a copy of the tree's rules with no target, and a path with no rt
mkdir -p "$room/bare/crates" "$room/tools"
cp Makefile crates.txt "$room/bare"
cp -r include "$room/bare"
for tool in make sh find sed paste cc; do ln -s "$(command -v "$tool")" "$room/tools"; done
missing() { # GOAL
    ! env PATH="$room/tools" make --silent -C "$room/bare" "$1" >"$room/said" 2>&1 && grep -q '^the Rattle kit is missing: ' "$room/said"
}
for goal in all run lib install dist test fmt; do trial "make $goal without the kit says what is missing" missing "$goal"; done
trial 'make help names every command of README.md' helped
end
