#!/usr/bin/env bash
# html.sh MPT: the page that `mpt map --html` writes, in a headless Chromium: a real pointer is moved onto cells, and what the page then tells
# is compared with document 01's words for case C. Without a Chromium that starts, one line says that it was skipped.
set -euo pipefail
mpt=$1
dir=$(mktemp -d)
browser=
trap '[ -z "$browser" ] || { kill "$browser" && wait "$browser"; } 2>/dev/null; rm -rf "$dir"' EXIT

skip() { echo "html: skipped: $*"; exit 0; }
fail() { echo "html: $*" >&2; exit 1; }

for name in chromium chromium-browser google-chrome; do
    command -v "$name" >/dev/null 2>&1 && break
    name=
done
[ -n "$name" ] || skip "there is no chromium here"

# case C, and after it a command that is refused (J) and a second domain that may read the first one's page
cat >"$dir/script" <<.
frame 32 0x80000 16
open 0 5
edit 0 0x40000000 0x1000 rw 1536
edit 0 0x8000F000 0x1000 rw 1536
open 1 6
edit 1 0x40000000 0x1000 rx 1536
.
status=0
"$mpt" map "$dir/script" --html "$dir/page.html" >/dev/null || status=$?
[ "$status" = 3 ] || fail "mpt map ended with $status; a refused command gives 3"

# the browser speaks on file 4 and hears on file 3: messages in JSON, each ended by a zero byte
mkfifo "$dir/hears" "$dir/speaks"
sandbox=()
[ "$(id -u)" != 0 ] || sandbox=(--no-sandbox)
HOME=$dir "$name" --headless --disable-gpu --remote-debugging-pipe --no-first-run --user-data-dir="$dir/profile" --window-size=1200,900 \
    ${sandbox[@]+"${sandbox[@]}"} about:blank 3<"$dir/hears" 4>"$dir/speaks" >"$dir/log" 2>&1 &
browser=$!
exec 5>"$dir/hears" 6<"$dir/speaks"

count=0
session=
# ask METHOD PARAMETERS: the answer's text is in $answer; what the browser says of itself meanwhile is kept in said
ask() {
    count=$((count + 1))
    printf '{"id":%d,"method":"%s","params":%s%s}\0' "$count" "$1" "$2" "${session:+,\"sessionId\":\"$session\"}" >&5
    while IFS= read -r -t 30 -d '' answer <&6; do
        case $answer in
            "{\"id\":$count,"*) return 0 ;;
            *) printf '%s\n' "$answer" >>"$dir/said" ;;
        esac
    done
    return 1
}
value() { sed -E 's/.*"value":("([^"]*)"|([0-9.]+)).*/\2\3/; s/\\n/\n/g; s/\\t/ /g' <<<"$answer"; }
# evaluate EXPRESSION (without double quotes)
evaluate() { ask Runtime.evaluate "{\"expression\":\"$1\",\"returnByValue\":true}" && value; }

ask Browser.getVersion '{}' || skip "$name does not start here: $(tail -n 1 "$dir/log")"
ask Target.createTarget '{"url":"about:blank"}'
target=$(sed -E 's/.*"targetId":"([^"]*)".*/\1/' <<<"$answer")
ask Target.attachToTarget "{\"targetId\":\"$target\",\"flatten\":true}"
session=$(sed -E 's/.*"sessionId":"([^"]*)".*/\1/' <<<"$answer")
ask Runtime.enable '{}'
ask Log.enable '{}'
ask Network.enable '{}'
ask Page.enable '{}'
ask Page.navigate "{\"url\":\"file://$dir/page.html\"}"
for _ in $(seq 100); do
    [ "$(evaluate "document.readyState + document.querySelectorAll('[data-at]').length")" != complete272 ] || break
    sleep 0.1
done

# point SELECTOR: moves the pointer onto a cell; prints what the panel then says
point() {
    local at
    evaluate "document.querySelector('$1').scrollIntoView({block: 'center'})" >/dev/null
    at=$(evaluate "(r => (r.left + r.width / 2) + ' ' + (r.top + r.height / 2))(document.querySelector('$1').getBoundingClientRect())")
    ask Input.dispatchMouseEvent "{\"type\":\"mouseMoved\",\"x\":${at% *},\"y\":${at#* }}"
    evaluate "document.getElementById('panel').innerText"
}
# expect SELECTOR LINE..: each line must be among those that the panel says
expect() {
    local selector=$1 panel line
    panel=$(point "$selector")
    shift
    for line in "$@"; do
        grep -qxF -- "$line" <<<"$panel" || fail "pointing at $selector does not tell \`$line\`, but: $panel"
    done
}

[ "$(evaluate "document.querySelectorAll('[data-at]').length")" = 272 ] || fail "not two domains of 128 blocks and 16 lent pages"
slot0='[data-name=\"slot 0\"]'
expect "$slot0 [data-at^=\\\"0x040000000\\\"]" 'slot 0: 0x040000000 to 0x041ffffff' 'permission: rw in part' \
    'L2 entry 0x0000400000080001, TYPE 4: by pages, L1 page 0x80001' 'open in it: 0x040000000 to 0x040000fff rw'
expect "$slot0 [data-at^=\\\"0x07e000000\\\"]" 'slot 0: 0x07e000000 to 0x07fffffff' 'permission: none' \
    'L2 entry 0x0000600000000000, TYPE 6: by pieces of 2 MiB'
expect "$slot0 [data-at^=\\\"0x000000000\\\"]" 'permission: none' 'L2 entry 0x0000000000000000, 1G type: one permission for the block'
expect '[data-at^=\"page 0x80001,\"]' 'lent: page 0x80001, 0x080001000 to 0x080001fff; L1 page of slot 0' 'permission: open to no domain'

text=$(evaluate 'document.body.innerText' | tr -s '[:blank:]' ' ')
for line in 'The table is sound. BUT 1 COMMAND WAS REFUSED OR CUT.' 'Open to more than one domain, and one of them may write' \
    '0x040000000 to 0x040000fff 4 KiB rw: slot 0; rx: slot 1'; do
    grep -qF -- "$line" <<<"$text" || fail "the page does not say \`$line\`, but: $text"
done
[ "$(evaluate "getComputedStyle(document.querySelector('section .alarm')).color")" = 'rgb(176, 16, 16)' ] || fail "what must not be missed is not red"
if grep -F '"method":"Network.requestWillBeSent"' "$dir/said" | grep -vF "\"url\":\"file://$dir/page.html\"" | grep -vF '"url":"about:blank"'; then
    fail "the page asks for something outside it"
fi
if grep -E '"method":"(Runtime.exceptionThrown|Log.entryAdded)"' "$dir/said"; then
    fail "the page has an error"
fi
echo "html: in $("$name" --version 2>/dev/null | sed -E 's/ (built|snap).*//; s/ +$//') every cell that was pointed at tells its address, permission and L2 entry; nothing is fetched"
