#!/usr/bin/env bash
# Makes web/sdd1.html, the programs in a page: compiles sdd1 and sdd1_inside to WebAssembly, without their proof, and joins
# them with the page's parts into one file that a browser opens from disk (docs/BROWSER.md).
#
#   tools/web.sh                     all of it, some eight minutes and 3 GB
#   tools/web.sh --page              the page's parts alone, with the programs that web/sdd1.html has; a second
#   tools/web.sh --modules FOLDER    takes the modules that FOLDER has, and makes the others there
#   tools/web.sh --compare FOLDER    the same, and compares all cases of the gate and random calls with natively built
#                                    programs: sdd1, sdd1_inside and sdd_cases.wasm, which are made in FOLDER too
#
# Needs the kit's rt, python3, git, and wasm-ld of LLVM 19 or later (Debian: apt-get install lld-19); --compare also gcc and
# node 20 or later. Where node is there each module is tried on an example before the page is written.
set -euo pipefail
root=$(cd "$(dirname "$0")/.." && pwd)
refuse() { echo "web.sh: $1" >&2; exit 2; }

modules=
compare=
case "${1:-}" in
  -h | --help) sed -n '2,14p' "$0" | sed 's/^# \{0,1\}//'; exit 0 ;;
  --modules | --compare)
    [[ $# -eq 2 ]] || refuse "$1 takes a folder (see --help)"
    modules=$2
    [[ $1 != --compare ]] || compare=yes ;;
  --page) exec python3 -B "$root/web/build.py" "$root/web/sdd1.html" --into "$root/web/sdd1.html" ;;
  "") ;;
  *) refuse "unknown word $1 (see --help)" ;;
esac
command -v rt >/dev/null || refuse "rt, the command of the Rattle kit, is not on the path"
git -C "$root" rev-parse HEAD >/dev/null 2>&1 || refuse "this is no clone: the page has to tell its commit"
if [[ -z $modules ]]; then
  modules=$(mktemp -d "${TMPDIR:-/tmp}/web-XXXXXX")
  trap 'rm -rf "$modules"' EXIT
fi
mkdir -p "$modules"

crates=(sdd1 sdd1_inside)
[[ -z $compare ]] || crates+=(sdd_cases)
for crate in "${crates[@]}"; do
  [[ -f $modules/$crate.wasm ]] || python3 -B "$root/web/modules.py" "$modules" "$crate"
done
python3 -B "$root/web/tests/try_modules.py" "$modules"
python3 -B "$root/web/build.py" "$modules" --into "$root/web/sdd1.html"

[[ -n $compare ]] || exit 0
for crate in sdd1 sdd1_inside; do
  [[ -x $modules/$crate ]] || python3 -B "$root/tools/build_unproved.py" "$modules/$crate" "$crate"
done
python3 -B "$root/web/compare.py" "$modules" --program "$modules/sdd1" --inside "$modules/sdd1_inside"
