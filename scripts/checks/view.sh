#!/bin/sh
# The page of journal_view: its maker, and the page in headless browsers, by mouse and keys, of adversarial payloads.
#
# It takes the proved journal. Chromium is driven over a pipe and Firefox over the loopback, without a network.
# docs/journal_view.png has to be a picture of the page as it is now.
set -u
cd "$(dirname "$0")/../.." || exit 1
. scripts/checks/lib.sh

needs python3 python3
program_of journal
[ -n "$program" ] || not_run "$why"
PYTHONDONTWRITEBYTECODE=1
export PYTHONDONTWRITEBYTECODE
counted 'the maker of the page' python3 view/tests/test_make_page.py
wasm_module
[ -n "$module" ] || without 'the page that opens journals' rt
for browser in chromium firefox; do
  counted "the pages in $browser" within 1800 python3 view/tests/in_browser.py $browser "$module"
done
counted 'the picture of the page' within 900 python3 view/picture.py --check

finish
