#!/bin/sh
# Renders each picture of this folder to a PNG file 1,200 pixels wide, to be looked at. Needs rsvg-convert, which
# Debian has in librsvg2-bin.
# Usage: examples/pictures/render.sh FOLDER
for picture in "$(dirname "$0")"/*.svg; do
    rsvg-convert --width 1200 --output "$1/$(basename "$picture" .svg).png" "$picture" || exit 1
done
