#!/bin/sh
# Times the reading of names and filters: reading.sh PROGRAM, where the program is that of the crate reading_bench
#
# A line for each text in two sizes: its bytes, the nanoseconds a byte of a plain loop over it and of reading it, the
# second in times of the first, and reading in times of that of the smaller size. The status is 1 where a name takes more than 10 times the
# loop, or a byte of the larger size more than 1.3 times a byte of the smaller; of a filter, whose items outgrow the caches, 2.5 times.
set -eu
"$1" run | awk '
    { print; is_filter = /^(items|pieces|escaped items|deep filters) / }
    NR > 1 && !is_filter && $(NF - 2) > 10 { missed = 1; print "  more than 10 times the loop" }
    NR > 1 && $(NF - 1) > (is_filter ? 2.5 : 1.3) { missed = 1; print "  more than it may be a byte" }
    END { exit missed || NR < 3 }
'
