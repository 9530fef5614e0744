#!/usr/bin/env bash
# The page of tools/online in headless Chromium: browser.sh [WORDS..] runs page_online.py. It installs nothing: where one of the Debian
# packages chromium, chromium-driver and python3-selenium isn't there, one line says so, and nothing is run. With --missing it only says
# that line. Status: that of the tests; 0 where they were passed over.
set -u
here=$(dirname "$(readlink -f "${BASH_SOURCE[0]}")")
missing=()
command -v chromium >/dev/null || missing+=(chromium)
command -v chromedriver >/dev/null || missing+=(chromium-driver)
[ -x /usr/bin/python3 ] && /usr/bin/python3 -c 'import selenium' 2>/dev/null || missing+=(python3-selenium)
if ((${#missing[@]})); then
    printf 'browser.sh: the tests of the page were passed over: they want the Debian packages %s\n' "${missing[*]}"
    exit 0
fi
[ "${1-}" = --missing ] && exit 0
PYTHONDONTWRITEBYTECODE=1 exec /usr/bin/python3 "$here/page_online.py" "$@"
