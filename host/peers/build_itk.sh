#!/bin/sh
# build_itk.sh PROGRAM: compiles area_opening_itk.cxx with the newest installed ITK (Debian: libinsighttoolkit5-dev).
set -eu
headers=$(ls -d /usr/include/ITK-* | sort -V | tail -n 1)
version=${headers##*ITK-}
exec c++ -O3 -DNDEBUG -std=c++17 -w -I"$headers" "$(dirname "$0")/area_opening_itk.cxx" -o "$1" \
    "-lITKCommon-$version" "-l:libitkvnl-$version.so.1" "-l:libitkvnl_algo-$version.so.1"
