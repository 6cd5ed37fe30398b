#!/bin/sh
# unilock WORDS: the proved program of this package, with the settings that it is measured with.
here=$0
[ -h "$here" ] && here=$(readlink -f "$here")
home=${here%/*}/../lib/unilock
case ${1-} in
  --version | -V)
    cat "$home/origin"
    exit
    ;;
  --help | -h)
    cat "$home/help"
    exit
    ;;
esac
# The settings are those of the script `unilock` of a clone: large pages and pieces of memory; fewer heaps and smaller
# stacks where the address space is limited; and a write past a limit of a file's size fails without a signal. Limits are
# read here, since a call of `ulimit` whose output is wanted starts a process.
tunables=glibc.malloc.hugetlb=1:glibc.malloc.top_pad=33554432:glibc.malloc.mmap_threshold=33554432
space=unlimited stack=unlimited
while read -r word what kind soft rest; do
  case "$word $what $kind" in
    "Max stack size") stack=$soft ;;
    "Max address space") space=$soft ;;
  esac
done </proc/self/limits
if [ "$space" != unlimited ]; then
  tunables=$tunables:glibc.malloc.arena_max=4
  if [ "$stack" = unlimited ] || [ "$stack" -gt 4194304 ]; then
    ulimit -S -s 4096
  fi
fi
export GLIBC_TUNABLES="${GLIBC_TUNABLES:-$tunables}"
trap '' XFSZ
exec "$home/unilock" "$@"
