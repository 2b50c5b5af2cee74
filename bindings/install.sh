#!/bin/sh
# Installs what `bindings/build.sh` makes, which it calls first, for programs in C:
#
#   bindings/install.sh PREFIX
#
#   PREFIX/include/graphql_parser.h
#   PREFIX/lib/libgraphql_parser.a, and the shared object with its links
#   PREFIX/lib/pkgconfig/graphql_parser.pc
#
# PREFIX is an absolute path. The files name it as the place where they lie; with DESTDIR set they are put below that folder
# instead, as makers of packages want it. Needs `install`.
set -eu
here=$(dirname -- "$(readlink -f -- "$0")")
case ${1-} in
/*) prefix=${1%/} ;;
*)
    echo "usage: bindings/install.sh PREFIX, an absolute path" >&2
    exit 2
    ;;
esac
"$here/build.sh"
version=$(sed -n 's/^#define GRAPHQL_PARSER_VERSION "\([0-9.]*\)"$/\1/p' "$here/graphql_parser.h")
below=${DESTDIR-}$prefix
install -d "$below/include" "$below/lib/pkgconfig"
install -m 644 "$here/graphql_parser.h" "$below/include"
install -m 644 "$here/out/libgraphql_parser.a" "$below/lib"
install -m 755 "$here/out/libgraphql_parser.so.$version" "$below/lib"
cp -P "$here/out/libgraphql_parser.so" "$here/out/libgraphql_parser.so.${version%%.*}" "$below/lib"
cat >"$below/lib/pkgconfig/graphql_parser.pc" <<END
prefix=$prefix
includedir=\${prefix}/include
libdir=\${prefix}/lib

Name: graphql_parser
Description: A parser of GraphQL whose every function is proved
Version: $version
Cflags: -I\${includedir}
Libs: -L\${libdir} -lgraphql_parser
END
