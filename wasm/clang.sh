#!/bin/sh
# The clang that packaging/make_wasm.sh shows to rattle: it keeps a copy of the module, and then runs the kit's own; in a
# hurry, since the archive isn't used.
for word in "$@"; do
    case $word in *.bc) cp "$word" '@KEPT@' || exit ;; esac
done
exec '@CLANG@' "$@" -O0
