#!/usr/bin/env bash
# Builds the listing program, runs it on inputs made by make_images.py, from a file and through a pipe, and compares what it prints.
set -euo pipefail
cd "$(dirname "$0")/.."
mkdir -p target
bash tools/build.sh listing 2>target/build.log || { cat target/build.log; exit 1; }
program=target/bin/listing
images=target/images
python3 -B tests/make_images.py "$images"
count=0
for image in "$images"/*.img; do
    "$program" <"$image" | cmp - "${image%.img}.txt"
    # in small pieces through a pipe
    dd if="$image" bs=1000 status=none | "$program" | cmp - "${image%.img}.txt"
    count=$((count + 1))
done
cmp examples/sample.img "$images/sample.img"
# whoever writes a long input must not be stopped
head -c 100000000 /dev/zero | "$program" | cmp - "$images/over.txt"
echo "listing: $count inputs, and 100 MB through a pipe"
