#!/bin/sh
# Links eight files of the published crate vortex-array 0.89.0 to their places in vortex-array/, unchanged.
# usage: ./mount.sh FOLDER, the crate's root folder (it holds src/). Each file may be named X.rs or X.rs.txt.
# A file is checked by the sha256 of its part before the test module (the line `#[cfg(test)]`, or the end of the
# file), without empty lines at the end. So a file is taken with its test module and without it.
set -eu
folder=$(cd "${1:?usage: mount.sh FOLDER of the published crate}" && pwd)
cd "$(dirname "$0")"
while read -r want path; do
  file=
  for name in "$folder/$path" "$folder/$path.txt"; do
    if [ -f "$name" ]; then file=$name; break; fi
  done
  if [ -z "$file" ]; then echo "mount.sh: no $path in $folder" >&2; exit 1; fi
  part=$(awk '/^#\[cfg\(test\)\]/ { exit } { print }' "$file")
  have=$(printf '%s\n' "$part" | sha256sum | cut -d ' ' -f 1)
  if [ "$have" != "$want" ]; then echo "mount.sh: $file is not the published file" >&2; exit 1; fi
  link=vortex-array/$path
  mkdir -p "$(dirname "$link")"
  if [ "$(readlink "$link" || true)" != "$file" ]; then ln -sfn "$file" "$link"; fi
done < PUBLISHED.sha256
