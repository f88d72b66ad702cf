# To be sourced; whoever does removes the folder $scratch, if it is one, at the end. Each check copies what it builds on, up to 400 MB, to a
# temporary folder: in memory, where there is room and programs may run from it, that takes a tenth of the time.
scratch=
room=$(df --output=avail -k /dev/shm 2>/dev/null | tail -n 1)
if [ -z "${TMPDIR:-}" ] && [ -w /dev/shm ] && [ "${room:-0}" -gt 4000000 ] && ! grep -q ' /dev/shm [^ ]* [^ ]*noexec' /proc/mounts; then
  # rt runs programs as nobody, who has to reach what lies in the folder
  scratch=$(mktemp -d /dev/shm/z33.XXXXXX) && chmod 711 "$scratch" && export TMPDIR=$scratch
fi
