#!/usr/bin/env bash
# Installs sdd1, sdd1_inside and sdd1_ask, and the command sdd: the programs, manual pages, and completions for bash, zsh and fish.
#
#   tools/install.sh [--libc] [PREFIX]      passes the gate (rt ci), which builds the programs, and installs them (86 minutes, 7.3 GB)
#   tools/install.sh --unproved ..          builds them without their proof, in some 10 minutes, as sdd1-unproved and so on
#   tools/install.sh --uninstall [PREFIX]   removes what either of them installed
#
# PREFIX is ~/.local if left out. Times are those of a machine with four processors that does nothing else. All is built and
# checked first and then put in place together; where anything fails, nothing is installed.
# Where gcc finds mimalloc (Debian: apt-get install libmimalloc2.0), the objects that the gate proved are linked with it in the
# place of libc's malloc, which saves up to four of ten instructions; the programs then need it to run. --libc does without.
# Needs the kit's rt and python3; --unproved also gcc. The command sdd alone needs no kit: pip install .
set -euo pipefail
root=$(cd "$(dirname "$0")/.." && pwd)
usage() { sed -n '2,13p' "$0" | sed 's/^# \{0,1\}//'; }
refuse() { echo "install.sh: $1" >&2; exit 2; }

mode=proved
libc=()
while [[ ${1:-} == -* ]]; do
  case "$1" in
    -h | --help) usage; exit 0 ;;
    --unproved | --uninstall) mode=${1#--} ;;
    --libc) libc=(--libc) ;;
    *) refuse "unknown word $1 (see --help)" ;;
  esac
  shift
done
[[ $# -le 1 ]] || refuse "too many words (see --help)"
prefix=${1:-$HOME/.local}
[[ $prefix == /* ]] || prefix=$PWD/$prefix

programs=(sdd1 sdd1_inside sdd1_ask)
pages=$prefix/share/man/man1
notes=$prefix/share/sdd1
# sdd1_inside takes files alone, which a shell completes by itself.
bash_folder=$prefix/share/bash-completion/completions
zsh_folder=$prefix/share/zsh/site-functions
fish_folder=$prefix/share/fish/vendor_completions.d

if [[ $mode == uninstall ]]; then
  files=("$prefix/bin/sdd" "$pages/sdd.1" "$bash_folder/sdd1-unproved")
  for name in sdd sdd1; do
    files+=("$bash_folder/$name" "$zsh_folder/_$name" "$fish_folder/$name.fish")
  done
  for name in "${programs[@]}"; do
    files+=("$prefix/bin/$name" "$prefix/bin/$name-unproved" "$pages/$name.1" "$notes/$name" "$notes/$name-unproved")
  done
  for file in "${files[@]}"; do
    [[ ! -e $file && ! -L $file ]] || { rm -f "$file" && echo "removed $file"; }
  done
  rmdir "$notes" 2>/dev/null || true
  exit 0
fi

command -v rt >/dev/null || refuse "rt, the command of the Rattle kit, is not on the path"
command -v python3 >/dev/null || refuse "python3 is not on the path"
mkdir -p "$prefix/bin" || refuse "$prefix/bin can't be made"
room=$(mktemp -d) || refuse "no folder for what is built"
trap 'rm -rf "$room"' EXIT

# step TEXT COMMAND ..: says what is done, does it, and says how long it took; where it fails nothing is installed.
steps=$([[ $mode == unproved ]] && echo 4 || echo 2)
step_number=0
step() {
  local text=$1 begin=$SECONDS
  shift
  step_number=$((step_number + 1))
  echo "step $step_number of $steps: $text"
  if ! "$@" >"$room/log" 2>&1; then
    tail -n 20 "$room/log" >&2
    refuse "step $step_number failed after $((SECONDS - begin)) s, so nothing was installed"
  fi
  echo "  done in $((SECONDS - begin)) s"
}

gate() {
  (cd "$root" && rt ci) || return 1
  for name in "${programs[@]}"; do
    [[ -x $root/crates/$name/out/$name ]] || { echo "$name was not built"; return 1; }
    take "$name" || return 1
  done
}

# A program of the gate as it built it, or its object linked with mimalloc.
take() {
  local built=$root/crates/$1/out/$1
  install -m 755 "$built" "$room/$1"
  [[ ${#libc[@]} -eq 0 && -f $built.o ]] && command -v gcc >/dev/null || return 0
  python3 "$root/tools/link_program.py" "$built.o" "$room/linked" || return 1
  ! has_mimalloc "$room/linked" || mv "$room/linked" "$room/$1"
}

has_mimalloc() { grep -aqF libmimalloc.so "$1"; }

# One example of each: the program has to print the text that the repository keeps of it.
prints() {
  local name=$1 data=$root/crates/$1
  shift
  (cd "$data/data" && "$room/$name$ending" "$@") | cmp - "$data/stdout" || { echo "$name doesn't print the text of its example"; return 1; }
}

# Each case of the gate as a call, and some random calls: with the allocator that the programs have here.
answers() {
  python3 "$root/tools/try_cases.py" --program "$room/sdd1$ending" || return 1
  python3 "$root/tools/fuzz.py" 0 10 --program "$room/sdd1$ending" --inside "$room/sdd1_inside$ending"
}

finish() {
  prints sdd1 run own.toml put_and_query.work || return 1
  prints sdd1_inside lost_packet.toml lost_packet.work || return 1
  prints sdd1_ask needs held.toml || return 1
  answers || return 1
  python3 "$root/tools/make_pyz.py" "$room/sdd"
}

ending=
if [[ $mode == unproved ]]; then
  ending=-unproved
  for name in "${programs[@]}"; do
    step "building $name without its proof (some 4 minutes)" python3 "$root/tools/build_unproved.py" "${libc[@]}" "$room/$name$ending" "$name"
  done
else
  step "the gate, rt ci: every proof, and the programs (86 minutes)" gate
fi
step "examples, all cases and random calls by these programs, and the command sdd (a minute)" finish

# All is there: now it is put in place.
kit=$(rt version 2>/dev/null | head -n 1 || true)
commit=$(git -C "$root" describe --always --dirty 2>/dev/null || true)
malloc=libc
! has_mimalloc "$room/sdd1$ending" || malloc=mimalloc
for name in "${programs[@]}"; do
  install -m 755 "$room/$name$ending" "$prefix/bin/.$name$ending.new"
done
for name in "${programs[@]}"; do
  mv -f "$prefix/bin/.$name$ending.new" "$prefix/bin/$name$ending"
  printf '%s\n' ${commit:+"commit $commit"} ${kit:+"$kit"} "malloc of $malloc" >"$room/note"
  install -Dm 644 "$room/note" "$notes/$name$ending"
  install -Dm 644 "$root/tools/install/$name.1" "$pages/$name.1"
done
install -m 755 "$room/sdd" "$prefix/bin/sdd"
install -Dm 644 "$root/tools/install/sdd.1" "$pages/sdd.1"
for name in sdd sdd1; do
  install -Dm 644 "$root/tools/install/$name.bash" "$bash_folder/$name"
  install -Dm 644 "$root/tools/install/_$name" "$zsh_folder/_$name"
  install -Dm 644 "$root/tools/install/$name.fish" "$fish_folder/$name.fish"
done
[[ $mode == proved ]] || ln -sf sdd1 "$bash_folder/sdd1-unproved"
echo "installed $prefix/bin/sdd1$ending, sdd1_inside$ending and sdd1_ask$ending beside it, and $prefix/bin/sdd, manual pages and completions"
if [[ $malloc == mimalloc ]]; then
  echo "malloc is that of mimalloc, which they need to run; with --libc it is libc's"
elif [[ ${#libc[@]} -eq 0 ]]; then
  echo "malloc is libc's; with mimalloc (Debian: libmimalloc2.0) they take up to four of ten instructions less"
fi
[[ :$PATH: == *":$prefix/bin:"* ]] || echo "note: $prefix/bin is not on your PATH"
