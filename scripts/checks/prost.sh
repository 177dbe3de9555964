#!/bin/sh
# prost gives the results of the test vectors, and the library those of prost for 50,000 random cases.
#
# It needs cargo and packages, and installs none. The last line is 'N passed, M failed'; it is '0 passed, 0 failed'
# where something is absent.
exec sh "$(dirname "$0")/../../bench/vectors.sh" --no-install 1 50000
