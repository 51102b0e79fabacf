#!/bin/sh
# Stands for the program where a test wants a refusal.
cat > /dev/null
echo "refused: $1 $2" >&2
exit 1
