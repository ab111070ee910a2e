#!/usr/bin/env bash
# build.sh [--quick] [--unchecked] [--bench] OUT [REPO]: translates and builds; prints where the program is.
set -eu
here=$(cd "$(dirname "${BASH_SOURCE[0]}")" && pwd)
profile=release; unchecked=; bench=; rest=()
for word in "$@"; do
  case $word in
    --quick) profile=quick ;;
    --unchecked) unchecked=--unchecked ;;
    --bench) bench=--bench ;;
    *) rest+=("$word") ;;
  esac
done
out=${rest[0]}
repo=${rest[1]:-$here/../..}
python3 "$here/translate.py" $unchecked $bench "$repo" "$out"
cd "$out"
what=(-p hgpart); [ -z "$bench" ] || what=(--bins)
nice -n 10 cargo build --quiet --offline -j1 --profile $profile "${what[@]}" >&2
echo "$out/target/$profile/hgpart"
