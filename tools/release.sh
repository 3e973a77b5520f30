#!/usr/bin/env bash
# Makes two archives: one that runs with nothing to build, with the programs, the command sdd, manual pages, completions, examples,
# the page and the documents; and the site of tools/make_site.py, for a browser or a web server.
#
#   tools/release.sh [FOLDER]               the programs as the gate builds them (rt ci): sdd1-VERSION-SYSTEM.tar.gz in FOLDER
#   tools/release.sh --unproved [FOLDER]    the programs without their proof: sdd1-VERSION-SYSTEM-unproved.tar.gz
#
# FOLDER is the one in which it is called if left out; the site is sdd1-VERSION-site.tar.gz. Beside each archive stands its sum, for
# `sha256sum -c`. They are of what is committed, and are not made where anything else is changed here; two of one commit differ in the
# programs alone, if in anything. bin/ and share/ can be copied to a prefix such as ~/.local; the programs need the system's libc and
# nothing else, and sdd needs Python 3.11. Needs what tools/install.sh and tools/make_site.py need, and git.
set -euo pipefail
root=$(cd "$(dirname "$0")/.." && pwd)
refuse() { echo "release.sh: $1" >&2; exit 2; }

proof=()
ending=
case "${1:-}" in
  -h | --help) sed -n '2,13p' "$0" | sed 's/^# \{0,1\}//'; exit 0 ;;
  --unproved) proof=(--unproved); ending=-unproved; shift ;;
  -*) refuse "unknown word $1 (see --help)" ;;
esac
[[ $# -le 1 ]] || refuse "too many words (see --help)"
into=${1:-$PWD}
mkdir -p "$into" || refuse "$into can't be made"
into=$(cd "$into" && pwd)

git -C "$root" rev-parse HEAD >/dev/null 2>&1 || refuse "this is no clone: an archive tells its commit"
[[ -z $(git -C "$root" status --porcelain) ]] || refuse "something here isn't committed"
version=$(sed -n 's/^__version__ = "\(.*\)"$/\1/p' "$root/python/sdd/__init__.py")
[[ -n $version ]] || refuse "python/sdd/__init__.py has no version"
system=$(uname -s | tr '[:upper:]' '[:lower:]')-$(uname -m)
name=sdd1-$version-$system$ending
room=$(mktemp -d) || refuse "no folder for what is made"
trap 'rm -rf "$room"' EXIT

# pack NAME: the archive of that folder, and its sum. One owner, one time and one order, so that it depends on the files alone.
pack() {
  local made=$into/$1.tar.gz
  tar --sort=name --owner=0 --group=0 --numeric-owner --mtime="@$(git -C "$root" log -1 --format=%ct)" -C "$room" -cf "$room/made.tar" "$1"
  gzip -9 -n "$room/made.tar"
  mv -f "$room/made.tar.gz" "$made"
  (cd "$into" && sha256sum "$1.tar.gz" >"$1.tar.gz.sha256")
  echo "made $made, $(stat -c %s "$made") bytes, and its sum beside it"
}

# The site comes first: it takes a minute, and is refused where its library is missing. The reference makes the same pages of runs.
python=python3
"$python" -c 'import markdown_it' 2>/dev/null || [[ ! -x /usr/bin/python3 ]] || python=/usr/bin/python3
site=sdd1-$version-site
"$python" -B "$root/tools/make_site.py" "$room/$site" --program reference 2>"$room/said" || { cat "$room/said" >&2; refuse "there is no site, so nothing was made"; }
git -C "$root" rev-parse HEAD >"$room/$site/COMMIT"

"$root/tools/install.sh" "${proof[@]}" --libc "$room/$name"
git -C "$root" archive HEAD examples docs web/sdd1.html README.md CHANGELOG.md CITATION.cff LICENSE-MIT LICENSE-APACHE | tar -x -C "$room/$name"
git -C "$root" rev-parse HEAD >"$room/$name/COMMIT"
pack "$name"
pack "$site"
