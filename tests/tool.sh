#!/usr/bin/env bash
# Builds the tool on the library's archive, which must be there (tests/run.sh makes it), and tries every command: what it prints, its exit status, and
# damaged images. ARCHIVE names another archive.
set -euo pipefail
cd "$(dirname "$0")/.."
cc=${CC:-cc}
archive=${ARCHIVE:-target/staticlib/libnichelarder.a}
work=target/tool
tool=target/nichelarder
strict=(-std=c99 -O2 -Wall -Wextra -Wpedantic -Wconversion -Wshadow -Werror)
fail() {
    echo "tool: $1"
    exit 1
}
# Runs the words after the first, which is the exit status that they must have. What is done says nothing on standard error, all else says why.
must() {
    local wanted=$1 got=0
    shift
    "$@" >"$work/out" 2>"$work/err" || got=$?
    [ "$got" = "$wanted" ] || fail "exit status $got, not $wanted: $*"
    case $wanted in
    0) [ ! -s "$work/err" ] || fail "standard error: $*" ;;
    2) [ -s "$work/err" ] || fail "nothing on standard error: $*" ;;
    esac
}
# A refusal: exit status 1, nothing on standard output, and on standard error the image and the refusal's number, which is the first word.
refuses() {
    local number=$1
    shift
    must 1 "$@"
    [ ! -s "$work/out" ] || fail "standard output: $*"
    grep -q "^nichelarder: .*($number): ." "$work/err" || fail "no refusal $number on standard error: $*"
}
printed() { cmp -s - "$work/out" || fail "$1 prints: $(head -c 300 "$work/out")"; }

rm -rf "$work"
mkdir -p "$work"
"$cc" "${strict[@]}" tools/nichelarder.c "$archive" -o "$tool"
"$cc" "${strict[@]}" tests/grow_images.c "$archive" -o target/grow_images
target/grow_images "$work"
python3 -B tests/make_images.py "$work/small"
python3 -B tests/make_damaged.py "$work/damaged"

# list and check, against the independent listing; tests/list.py itself stops at 15 pages, as the listing program does
python3 -B - "$work"/small/*.img "$work"/*.img <<'PYTHON'
import sys
sys.path.insert(0, "tests")
sys.setrecursionlimit(20000)
import list as lister
import reference
for name in sys.argv[1:]:
    with open(name, "rb") as image_file:
        image = image_file.read()
    number = reference.check(image)[0]
    with open(name[:-4] + ".list", "w", encoding="ascii") as out:
        if not number:
            states = image[reference.PAGE + 4080::reference.PAGE]
            out.write("pages %d free %d records %d\n" % (len(states) + 1, states.count(0), states.count(1)))
            out.writelines(line + "\n" for line in lister.record(image, 1, 1))
    with open(name[:-4] + ".number", "w", encoding="ascii") as out:
        out.write("%d\n" % number)
PYTHON
lists=0
for image in "$work"/small/*.img "$work"/*.img; do
    number=$(cat "${image%.img}.number")
    refused=$((number != 0))
    must $refused "$tool" list "$image"
    printed "list $image" <"${image%.img}.list"
    [ "$refused" = 0 ] || grep -q "($number)" "$work/err" || fail "list $image: no refusal $number"
    must $refused "$tool" check "$image"
    [ "$refused" = 0 ] || grep -q "($number)" "$work/out" || fail "check $image: no refusal $number"
    if [ "$refused" = 0 ]; then echo ok | printed "check $image"; fi
    lists=$((lists + 1))
done
"$tool" list <"$work/forty.img" | cmp - "$work/forty.list"
dd if="$work/forty.img" bs=1000 status=none | "$tool" list - | cmp - "$work/forty.list"
must 1 "$tool" check <(head -c 10000000 /dev/zero)
grep -q '^wrong length (1): the input has 10000000 bytes' "$work/out" || fail "an input that is too long"

# diagnose
must 0 "$tool" diagnose "$work/first.img"
echo "the image passes the check" | printed diagnose
must 1 "$tool" diagnose /dev/null
grep -q '^wrong length (1): the input has 0 bytes' "$work/out" || fail "diagnose an empty input"
damaged=0
for image in "$work"/damaged/*.img; do
    must 1 "$tool" diagnose "$image"
    printed "diagnose $image" <"${image%.img}.txt"
    damaged=$((damaged + 1))
done
# what it says is done, until the image passes
python3 -B tests/follow_advice.py "$tool" "$work/damaged" "$work"/small/{grown5,grown15,apart15}.img "$work/forty.img"

# records: the pages in use, each with its holder; the deepest nesting
must 0 "$tool" records "$work/nested.img"
python3 -B - "$work/nested.img" "$work/out" <<'PYTHON'
import sys
with open(sys.argv[1], "rb") as image_file:
    image = image_file.read()
with open(sys.argv[2], encoding="ascii") as out:
    lines = out.read().splitlines()
two = lambda at: image[at] + 256 * image[at + 1]
nested, wanted = {1: 0}, []
def deep(page):
    steps, at = 0, page
    while at != 1:
        steps, at = steps + 1, two(4096 * at + 4084)
    return steps
for page in range(1, len(image) // 4096):
    trailer = 4096 * page + 4080
    if image[trailer]:
        sort = "settled" if image[trailer + 1] else "several nodes" if image[4096 * page] == 4 else "one node"
        wanted.append([str(page), str(two(trailer + 4)) if page > 1 else "-", str(two(trailer + 2)), str(deep(page))] + sort.split())
assert [line.split() for line in lines[1:-1]] == wanted, "records"
assert lines[-1].startswith("%d records, nested up to %d deep" % (len(wanted), max(int(line[3]) for line in wanted))), lines[-1]
PYTHON

# find and climb, there and back; paths and places that are none
for path in / 0 0/0 3/1/2 5/0/9; do
    must 0 "$tool" find $path "$work/forty.img"
    read -r _ page _ offset _ <"$work/out"
    must 0 "$tool" climb "$page" "${offset%:}" "$work/forty.img"
    echo $path | printed "climb $page ${offset%:}"
done
must 0 "$tool" find 1 examples/sample.img
echo "page 1 offset 12: literal 9, origin wire, content: 4142" | printed "find 1"
must 0 "$tool" find /0 examples/sample.img
echo "page 1 offset 6: aggregate 300, origin wire, children: 0" | printed "find /0"
refuses 7 "$tool" find 2 examples/sample.img
refuses 7 "$tool" find 4294967295 examples/sample.img
refuses 4 "$tool" find "$(printf '0/%.0s' {1..23})0" examples/sample.img
refuses 10 "$tool" climb 1 7 examples/sample.img
refuses 10 "$tool" climb 4294967295 4294967295 examples/sample.img
for words in "find /" "climb 1 0" list records; do
    refuses 3 "$tool" $words "$work/damaged/kind.img"
    refuses 1 "$tool" $words /dev/null
done

# the command line and files
must 0 "$tool" --help
grep -q '^usage: ' "$work/out" || fail "--help"
must 0 "$tool" --version
sed -n 's/^#define NL_VERSION "\(.*\)"$/nichelarder \1/p' include/nichelarder.h | printed --version
for words in "" "frob" "list a b" "find" "find 0 a b" "find x a" "find 0/ a" "find 0//1 a" "find -1 a" "find 4294967296 a" "climb 1 a" "climb 1 x a" "picture" \
    "picture a.svg b c d" "picture a.svg b x" "picture a.img b" "picture .svg"; do
    must 2 "$tool" $words
    grep -q '^usage: ' "$work/err" || fail "no usage: $words"
done
must 2 "$tool" list "$work/absent.img"
must 2 "$tool" list "$work"
must 2 "$tool" picture "$work/absent/out.svg" examples/sample.img
must 2 "$tool" picture "$work/out.svg" examples/sample.img 3
if [ -w /dev/full ]; then
    ln -s /dev/full "$work/full.svg"
    must 2 "$tool" picture "$work/full.svg" "$work/forty.img"
    rm "$work/full.svg"
    "$tool" list "$work/forty.img" >/dev/full 2>"$work/err" && fail "a full disk" || [ $? = 2 ] || fail "a full disk: status"
fi

# pictures, also of damaged images: well-formed, a cell for each page, an arrow to each record but the root's; of a sound one the chosen page's nodes
pictures=0
for image in "$work"/{three,forty,first,nested}.img; do
    must 0 "$tool" picture "${image%.img}.svg" "$image"
    pictures=$((pictures + 1))
done
must 0 "$tool" picture - "$work/forty.img" 5
cp "$work/out" "$work/page5.svg"
cp "$work/forty.img" "$work/page5.img"
for image in "$work"/damaged/*.img; do
    must 1 "$tool" picture "${image%.img}.svg" "$image"
    grep -qF "$(cat "${image%.img}.txt")" "$work/err" || fail "picture $image: no diagnosis"
    pictures=$((pictures + 1))
done
odd="$work/a]]><b>&\"'.svg.img"
cp examples/sample.img "$odd"
must 0 "$tool" picture "$work/odd.svg" "$odd"
cp "$odd" "$work/odd.img"
must 1 "$tool" picture "$work/none.svg" /dev/null
[ ! -e "$work/none.svg" ] || fail "a picture of nothing"
python3 -B - "$work"/*.svg "$work"/damaged/*.svg <<'PYTHON'
import re
import sys
import xml.etree.ElementTree as tree
sys.path.insert(0, "tests")
import reference
SVG, PAGE = "{http://www.w3.org/2000/svg}", reference.PAGE
two = lambda image, at: image[at] + 256 * image[at + 1]
for name in sys.argv[1:]:
    root = tree.parse(name).getroot()
    with open(name[:-4] + ".img", "rb") as image_file:
        image = image_file.read()
    pages = len(image) // PAGE
    assert len(root.findall(SVG + "g")) == pages, name
    # arrows are curves; a back link that is damaged, to no page or to the page itself, has none
    arrows = [path for path in root.findall(SVG + "path") if "C" in path.get("d")]
    sound = "damaged/" not in name
    records = [page for page in range(2, pages) if image[PAGE * page + 4080] == 1]
    holders = [page for page in records if sound or two(image, PAGE * page + 4084) not in [0, page] + list(range(pages, 65536))]
    assert len(arrows) == len(holders), (name, len(arrows), len(holders))
    if not sound:
        continue
    # the nodes of the page: the offset of each, and what it is; and how many there was no room for
    texts = [text for text in root.findall(SVG + "text")]
    chosen = next(int(found[1]) for found in (re.match(r"Page (\d+): ", text.text) for text in texts) if found)
    assert chosen == (5 if "page5" in name else 1), name
    code = [text for text in texts if text.get("class") == "code"]
    offsets = [int(text.text) for text in code if text.get("text-anchor")]
    rows = [text.text for text in code if not text.get("text-anchor")]
    starts = [start - PAGE * chosen for start in reference.headers(image, chosen)]
    assert offsets == starts[:len(offsets)] and len(offsets) >= min(len(starts), 25), (name, offsets, starts)
    kinds = [("aggregate", "literal", "proxy", "helper")[image[PAGE * chosen + start] - 1] for start in offsets]
    rest = ["and"] if len(starts) > len(offsets) else []
    assert [re.split("[ ,]", row)[0] for row in rows] == kinds + rest, (name, rows)
    assert not rest or rows[-1] == "and %d more nodes" % (len(starts) - len(offsets)), (name, rows[-1])
PYTHON

# memory
if command -v valgrind >/dev/null; then
    memory=(valgrind -q --leak-check=full --errors-for-leak-kinds=all --error-exitcode=99 "$tool")
    for words in check diagnose list records "find 1" "climb 1 12" "picture $work/memory.svg"; do must 0 "${memory[@]}" $words examples/sample.img; done
    must 0 "${memory[@]}" list "$work/forty.img"
    for image in erased size_long names_outside ring used_long deep_record; do must 1 "${memory[@]}" picture "$work/memory.svg" "$work/damaged/$image.img"; done
    must 2 "${memory[@]}" list "$work/absent.img"
fi
echo "tool: $lists lists, $damaged diagnoses, $pictures pictures"
