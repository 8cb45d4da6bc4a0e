#!/bin/sh
# differ.sh [SEED] [ROUNDS]: both proved models, laying, the driver and the split against plain.c, a model in plain C
# written from the rules, on many random calls; the two proved models against each other on drawn frames, with clock
# readings inside them too; the laws of laying and of supply cuts, writes sent twice, writes cut and sent again, and
# calls with two numbers of blank cells. Prints the first difference, or a summary.
exec "$(dirname "$0")/run.sh" bench differ differ.c plain.c -- "$@"
