#!/bin/sh
# Opens docs/explore.html from its folder in browsers without a screen, Chromium and Firefox, and holds what
# it shows against the program: addresses, neighbours, stars, windows, refusals of rule files; drags,
# pinches, wheel and keys; what it saves and copies; and that nothing sticks out on a desk, a laptop and a
# phone. Before that it compares the page with what packaging/make_page.py makes of js/ and rules/. Ends
# with 1 if something differs.
# `explore.sh --pictures FOLDER` keeps pictures of the page too, and `--times` prints how fast it is.
. "$(dirname "$0")/needs"
need program
is_there chromium || is_there firefox-esr || skip browser
"$python" "$top/packaging/make_page.py" --check || exit 1
exec "$python" "$top/tests/page/explore.py" "$top" "$program" "$@"
