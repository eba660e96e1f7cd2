# What the checks in shell share, which source it: top, the repository's folder, in which they then work; program, the one to run, by
# the first argument or as it was built; work, a folder that goes with the check; fail, which says what is wrong and goes on.
# shellcheck shell=bash disable=SC2034
top=$(cd "$(dirname "${BASH_SOURCE[0]}")/../.." && pwd)
check=${0##*/} failed=0
program=$(realpath -m -- "${1:-$top/crates/dymelor/out/dymelor}")
cd "$top" || exit
# shellcheck source-path=SCRIPTDIR source=../lib/work.sh
source "$top/checks/lib/work.sh"

say() { echo "$check: $*" >&2; }

fail() {
  say "$*"
  failed=1
}

if [ ! -x "$program" ]; then
  say "there is no program $program: ./dymelor --build builds it"
  exit 70
fi
