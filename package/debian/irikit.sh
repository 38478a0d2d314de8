#!/bin/sh
# Runs the program, and says on standard error why it ended where that is neither 0 nor 1 (irikit(1), EXIT STATUS).
program=/usr/libexec/irikit/irikit
statuses=/usr/share/irikit/statuses
"$program" "$@"
status=$?
# shellcheck source=package/statuses
[ "$status" -lt 2 ] || [ ! -r "$statuses" ] || . "$statuses"
exit "$status"
