#!/usr/bin/env bash
# Tests scripts/timeline and scripts/trace_json on the outputs of examples: what they write, that the pictures in
# examples/ are those of the outputs beside them, and the page in a browser. Where chromium is not installed that
# part is skipped by name.
set -u
cd "$(dirname "$0")/../.." || exit 2
room=$(mktemp -d) || exit 2
trap 'rm -rf "$room"' EXIT
passed=0
failed=0

same() {
  if [ "$2" = "$3" ]; then
    passed=$((passed + 1))
  else
    failed=$((failed + 1))
    printf 'timeline check failed: %s\n  wanted: %s\n  got:    %s\n' "$1" "$2" "$3"
  fi
}

for picture in examples/*.svg; do
  name=$(basename "$picture" .svg)
  same "$picture is that of $name.out" "$(cat "$picture")" "$(scripts/timeline --svg "$name=examples/$name.out")"
done

printf '5 a\\nb \\\\\n@0 var map{"a" => 1}\n@1 obj 2 "Ann" 5\n@2 event\n= error K1 4:40 at 7 steps 9\nx y.verse:2:3 E030 unexpected token\n' > "$room/all"
same 'trace_json: a kind of line each' "$(printf '%s\n' \
  '{"run": "-", "kind": "print", "moment": 5, "text": "a\nb \\"}' \
  '{"run": "-", "kind": "cell", "cell": 0, "what": "var", "value": "map{\"a\" => 1}"}' \
  '{"run": "-", "kind": "cell", "cell": 1, "what": "obj", "class": 2, "fields": "\"Ann\" 5"}' \
  '{"run": "-", "kind": "cell", "cell": 2, "what": "event"}' \
  '{"run": "-", "kind": "end", "ending": "error", "code": "K1", "place": "4:40", "moment": 7, "steps": 9}' \
  '{"run": "-", "kind": "refusal", "file": "x y.verse", "line": 2, "column": 3, "code": "E030", "text": "unexpected token"}' \
)" "$(scripts/trace_json < "$room/all")"
same 'trace_json: every line of every example is read' '' \
  "$(scripts/trace_json examples/*.out | grep '"kind": "other"')"
scripts/timeline nothing > "$room/none" 2> "$room/said"
same 'timeline: a file that is not there' '6 0' "$? $(wc -c < "$room/none")"
scripts/timeline > "$room/none" 2> "$room/said"
same 'timeline: no words' '2 0 1' "$? $(wc -c < "$room/none") $(grep -c 'HTML page' "$room/said")"

printf '0 <script>alert(1)</script> &amp;\n100 </script>\n= done at 100 steps 1 live 0\n' > "$room/hostile"
scripts/timeline one=examples/waves.out two=examples/runners.out three="$room/hostile" > "$room/page.html"
same 'timeline: the page loads nothing' '' "$(grep -oE '(src|href)=|https?://[^"]*' "$room/page.html" | grep -v 'http://www.w3.org/2000/svg')"

browser=$(command -v chromium || command -v chromium-browser)
if [ -n "$browser" ] && "$browser" --version > "$room/said" 2>&1; then
  # The page is driven as a reader would, and says in its title what it shows.
  cat > "$room/drive" <<'DRIVE'
<script>
var told = [], root = document.documentElement;
function tell(what) { told.push(what + "=" + root.dataset.view + "/" + root.dataset.state); }
tell("whole");
document.getElementById("in").click(); tell("in");
document.getElementById("right").click(); tell("right");
document.getElementById("all").click(); tell("all");
var axis = document.getElementById("axis");
axis.dispatchEvent(new WheelEvent("wheel", { deltaY: -1, clientX: axis.getBoundingClientRect().left + 8, cancelable: true })); tell("wheel");
document.dispatchEvent(new KeyboardEvent("keydown", { key: "0" })); tell("key");
var find = document.getElementById("find");
find.value = "TROLL"; find.oninput(); told.push("found=" + document.querySelectorAll(".found").length);
document.getElementById("theme").click(); var one = root.dataset.theme;
document.getElementById("theme").click(); told.push("themes=" + [one, root.dataset.theme].sort().join(" "));
told.push("rows=" + document.querySelectorAll("section").length + " " + root.dataset.shown);
told.push("hostile=" + document.querySelectorAll("main script").length);
document.title = "told: " + told.join("; ");
</script>
DRIVE
  sed -e "/<\/body>/{r $room/drive
N}" "$room/page.html" > "$room/driven.html"
  shown() { HOME=$room timeout 120 "$browser" --headless --no-sandbox --disable-gpu --user-data-dir="$room/profile" --window-size=1100,2400 --dump-dom "$1" 2> /dev/null; }
  title=$(shown "file://$room/driven.html" | grep -o '<title>told: [^<]*' | sed 's/.*told: //')
  lines=$(grep -c '^[0-9]' examples/waves.out)
  same 'timeline: the page in a browser' "whole=0 36500/drawn; in=9125 27375/drawn; right=13688 31938/drawn; all=0 36500/drawn; wheel=0 29200/drawn; key=0 36500/drawn; found=1; themes=dark light; rows=3 $lines 6 2; hostile=0" "$title"
  same 'timeline: a part by its address' '21000 31000/drawn' \
    "$(shown "file://$room/page.html#from=21000&to=31000" | grep -o '<html[^>]*' | sed -E 's/.*data-view="([^"]*)".*data-state="([^"]*)".*/\1\/\2/')"
else
  echo 'skipped: the page in a browser (chromium is not installed)'
fi

echo "$passed passed, $failed failed"
[ "$failed" -eq 0 ]
