# Temporary files in memory, where there is room. A check copies the modules of all crates below it, up to 0.3 GB, into
# a temporary folder. Sourced by the scripts that prove; programs run in it as nobody, so it can be passed through.
if [ -z "${TMPDIR-}" ] && [ -w /dev/shm ] && ! grep -q ' /dev/shm .*noexec' /proc/mounts &&
    [ "$(df -Pk /dev/shm | awk 'NR == 2 { print $4 }')" -gt 4000000 ] &&
    memory=$(mktemp -d /dev/shm/zuvaropy.XXXXXX) && chmod 711 "$memory"; then
    TMPDIR=$memory
    export TMPDIR
    trap 'rm -rf "$memory"' EXIT
    trap 'exit 1' HUP INT TERM
fi
