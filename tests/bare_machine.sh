#!/bin/sh
# A machine that has nothing but its system and an interpreter, in namespaces of its own for mounts, the network and
# processes: `bare_machine.sh ROOT THINGS PYTHON PREFIX USER HIDDEN ..`. ROOT becomes its root folder, in which /usr and
# the interpreter's PREFIX are the machine's own, and /home/user has THINGS. Programs HIDDEN are no programs there. It
# runs /home/user/steps.py by PYTHON, as the user and group USER, with a bare environment.
set -eu
root=$1 things=$2 python=$3 prefix=$4 user=$5
shift 5
mount --make-rprivate /
mount -t tmpfs -o mode=755 tmpfs "$root"
mkdir "$root/proc" "$root/dev" "$root/etc" "$root/home"
for name in usr bin sbin lib lib64; do
  if [ -h "/$name" ]; then
    cp -P "/$name" "$root/$name"
  elif [ -d "/$name" ]; then
    mkdir "$root/$name"
    mount --rbind "/$name" "$root/$name"
  fi
done
mount -t tmpfs -o mode=755 tmpfs "$root/usr/local"
case $prefix in
  /usr) ;;
  *)
    mkdir -p "$root$prefix"
    mount --rbind "$prefix" "$root$prefix"
    ;;
esac
for name; do
  [ ! -e "$root$name" ] || mount --bind /dev/null "$root$name"
done
mount -t proc proc "$root/proc"
mount --rbind /dev "$root/dev"
mkdir -m 1777 "$root/tmp"
[ ! -e /etc/ld.so.cache ] || cp /etc/ld.so.cache "$root/etc/"
cp -r "$things" "$root/home/user"
chown -R "$user" "$root/home/user"
exec chroot --userspec="$user" "$root" /usr/bin/env -i HOME=/home/user PATH=/usr/bin:/bin LC_ALL=C.UTF-8 \
  "$python" /home/user/steps.py
