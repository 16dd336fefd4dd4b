# Sets `program` to the compiled program $1, proved first. $2, a test's first argument, names another program to try the test on; nothing in
# the environment does, so that the gate always tests the proved one.
if [ $# -gt 1 ]; then
    program=$(realpath "$2")
else
    (cd "crates/$1" && rt run) >/dev/null 2>&1 || { echo "$1 is not proved and built: rt run, in crates/$1"; exit 1; }
    program=$PWD/crates/$1/out/$1
fi
[ -x "$program" ] || { echo "there is no program $program"; exit 1; }
