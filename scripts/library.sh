#!/bin/sh
# library.sh: proves and builds the library that hosts link, and prints where it stands.
. "$(dirname "$0")/machine.sh"
library
