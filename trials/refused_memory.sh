#!/bin/sh
# Whether command lines end as they have to where memory is refused: each of their allocations finds none in turn, one a run. Such a run says so
# (status 254), what it printed is the beginning of what is printed with ample memory, and the packages are those from before. Or it ends
# as with ample memory; or, where the buffer of a package file or of the standard input finds none, that isn't opened, which is status 1.
# And whether memory is taken as bytes come: a list of 16 bytes that claims 68,157,424 more is cut short, where no more than 16 MiB may be taken.
#
#   trials/refused_memory.sh PROGRAM    PROGRAM is crates/rpm_prog/out/rpm_prog; wants python3 and a C compiler (Debian: apt-get install gcc)
#
# It prints a line for each command line, and takes about TIMES. Its status is 1 where one ended otherwise.
set -eu

[ "${1-}" != --help ] || { sed -n '1d; /^#/!q; s/^# \{0,1\}//p' "$0"; exit; }
[ $# -eq 1 ] || { echo "trials/refused_memory.sh: name the program" >&2; exit 1; }
program=$(realpath "$1")
here=$(cd "$(dirname "$0")" && pwd)
room=$(mktemp -d)
trap 'rm -rf "$room"' EXIT
cd "$room"
cc -shared -fPIC -O1 -o refuse_memory.so "$here/refuse_memory.c" -ldl
mkdir begun
python3 "$here/../bench/make_package.py" 1 p1.rpm
# From a lead of 96 bytes and a signature header of 40 on a package file is the list of its one header.
tail -c +137 p1.rpm > one
cat one one one > list
"$program" rpmdb --dbpath begun --importdb < list
failed=0

# Runs the words in a copy of the folder begun, with this allocation refused.
run() {
    refused=$1
    shift
    rm -rf db
    cp -r begun db
    status=0
    LD_PRELOAD=./refuse_memory.so REFUSE=$refused REFUSE_COUNT=count "$program" "$@" < list > out 2> err || status=$?
}

# What the database in db says of its packages.
packages() {
    "$program" rpm --dbpath db -qa --qf '%{DBINSTANCE} %{NVRA} %{SIGSIZE}\n'
}

# Whether the words end so at each refusal.
try() {
    run 0 "$@"
    [ "$status" -eq 0 ] || { echo "trials/refused_memory.sh: $*: status $status" >&2; exit 1; }
    mv out wanted
    count=$(cat count)
    packages > behind
    refusals=0
    for number in $(seq 1 "$count"); do
        run "$number" "$@"
        packages > left
        [ "$status" -ne 254 ] || refusals=$((refusals + 1))
        if [ "$status" -eq 0 ]; then
            if cmp -s out wanted && cmp -s left behind; then continue; fi
        elif [ "$status" -eq 254 ] || grep -qx 'error: open of .* failed' err; then
            if head -c "$(stat -c %s out)" wanted | cmp -s - out && cmp -s left before; then continue; fi
        fi
        echo "trials/refused_memory.sh: $*: allocation $number of $count: status $status" >&2
        failed=1
    done
    echo "$*: $count allocations, $refusals answered with status 254"
}

# Whether the import of a list ends with this status, where 16 MiB of addresses are all that it may have.
limited() {
    rm -rf db
    cp -r begun db
    status=0
    (ulimit -v 16384 && exec "$program" rpmdb --dbpath db --importdb) < "$1" > out 2> err || status=$?
    packages > left
    if [ "$status" -eq "$2" ] && cmp -s left before; then
        echo "a list of $(stat -c %s "$1") bytes in 16 MiB: status $status"
    else
        echo "trials/refused_memory.sh: a list of $(stat -c %s "$1") bytes in 16 MiB: status $status, not $2" >&2
        failed=1
    fi
}

rm -rf db
cp -r begun db
packages > before
# The most entries and data that a header may claim: of them nothing comes, and then all.
printf '\216\255\350\001\0\0\0\0\0\0\377\377\004\0\0\0' > claims
limited claims 1
{ cat claims; head -c 68157424 /dev/zero; } > whole
limited whole 254
rm whole
try rpm --dbpath db -qa
try rpm -qp p1.rpm --qf '%{NVRA} %{SIGSIZE} %{DBINSTANCE} '
try rpm --dbpath db --erasepkg 2
try rpm --dbpath db --addpkg p1.rpm
try rpm --dbpath db --replacepkg 1 p1.rpm
try rpmdb --dbpath db --importdb
try rpmdb --dbpath db --rebuilddb
# A stale index, which is made anew.
printf '\001' | dd of=begun/Hindex.db bs=1 seek=8 conv=notrunc 2> err
try rpm --dbpath db -q package1
exit $failed
