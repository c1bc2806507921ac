#!/bin/sh
# Makes libheal.a, libheal.so and heal.pc in bindings/c/out of the archive crates/heal_c/out/libheal_c.a. Requires rt, cc and ar.
#
# The file VERSION has the number of the version; its first part is that of the soname. libheal.so exports what heal.h declares.
set -e
cd "$(dirname "$0")"
root=$(cd ../.. && pwd)
kit=$(dirname "$(rt doc)")
version=$(cat "$root/VERSION")
soname=libheal.so.${version%%.*}

mkdir -p out
rm -f out/libheal.*
# The second archive calls malloc, realloc and free.
ar -M <<END
create out/libheal.a
addlib $root/crates/heal_c/out/libheal_c.a
addlib $kit/c/liblibc_c.a
save
end
END
echo '{ global: heal_*; local: *; };' > out/exports
cc -shared -o "out/libheal.so.$version" -Wl,-soname,"$soname" -Wl,--version-script,out/exports -Wl,-z,defs \
    -Wl,--whole-archive out/libheal.a -Wl,--no-whole-archive
ln -sf "libheal.so.$version" "out/$soname"
ln -sf "$soname" out/libheal.so
cat > out/heal.pc <<END
prefix=\${pcfiledir}/..

Name: heal
Description: The name registry that two halves of a cluster use when they meet again after a network split
Version: $version
Cflags: -I\${prefix}
Libs: -L\${pcfiledir} -lheal
END
