#!/bin/sh
# What people touch: the two station programs on good and bad files (station.py), on files of repairs (repairs.py), on files of
# which the constants are worked out (constants.py) and on records that are sent out, with the program that reads them back
# (send.py); the wrappers of host/ (wrappers.py), and what README.md says and shows (readme.py).
set -eu
cd "$(dirname "$0")/.."
. host/setup.sh
build_c host/station.c "$OUT/station-c"
build_rust host/station.rs "$OUT/station-rust" host/card.rs
build_c host/receive.c "$OUT/receive"
# Both once more with station_z.c between them and the library.
$CC -std=c99 -O2 -Wall -Wextra -Werror -Iinclude -c tests/station_z.c -o "$OUT/station_z.o"
$CC -std=c99 -O2 -Iinclude -Wl,--wrap=card_add_water host/station.c "$OUT/station_z.o" "$LIBRARY" -o "$OUT/station-z-c"
$RUSTC -C opt-level=3 -C "link-arg=$OUT/station_z.o" -C link-arg=-Wl,--wrap=card_add_water \
    -L native=target/staticlib -l static=card host/station.rs -o "$OUT/station-z-rust"
export STATION_C="$RUN $OUT/station-c" STATION_RUST="$RUN $OUT/station-rust"
export STATION_Z_C="$RUN $OUT/station-z-c" STATION_Z_RUST="$RUN $OUT/station-z-rust"
export RECEIVE="$RUN $OUT/receive"
python3 tests/station.py
python3 tests/repairs.py
python3 tests/constants.py
python3 tests/send.py
python3 tests/wrappers.py
CC="$CC" RUN="$RUN" python3 tests/readme.py
