# shellcheck shell=bash
# For scripts/package.sh: makes the Debian packages that share/debian/control lists.
#
#     make_debian TREE FOLDER
#
# TREE is what install.sh put below /usr. FOLDER gets one package for each stanza, except the program's if the tree has no
# program; their paths are printed. $root, $scratch, $version, $machine, $architecture, $tools and $SOURCE_DATE_EPOCH are set.
# DEBFULLNAME and DEBEMAIL name the maintainer, as for Debian's own tools.

make_debian() {
    local tree=$1 folder=$2 name
    debian_version=$version-1
    maintainer="${DEBFULLNAME:-Naltvigo maintainers} <${DEBEMAIL:-maintainers@naltvigo.invalid}>"
    split_tree "$tree"
    while read -r name; do
        [ -d "$name" ] || continue
        add_documents "$name"
        build_package "$name" "$folder"
    done < <(sed -n 's/^Package: //p' "$root/share/debian/control")
}

# Moves the files of the tree to the folders of the packages, where Debian has them.
split_tree() {
    local tree=$1 lib=usr/lib/$machine-linux-gnu
    mkdir "$scratch/deb"
    cd "$scratch/deb"
    [ ! -d "$tree/bin" ] || split_program "$tree"
    mkdir -p "libnaltvigo2/$lib" "libnaltvigo-dev/$lib" naltvigo-doc/usr/share/doc
    mv "$tree"/lib/libnaltvigo.so.* "libnaltvigo2/$lib"
    chmod 644 "libnaltvigo2/$lib/libnaltvigo.so.$version"
    mv "$tree/include" libnaltvigo-dev/usr/include
    mv "$tree"/lib/libnaltvigo.{a,so} "$tree/lib/pkgconfig" "$tree/lib/cmake" "libnaltvigo-dev/$lib"
    # These files are one folder deeper below the prefix; pkg-config must recognise Debian's folders as the system's.
    sed -i "s|^prefix=.*|prefix=/usr|; s|^libdir=.*|libdir=\${prefix}/${lib#usr/}|" "libnaltvigo-dev/$lib/pkgconfig/naltvigo.pc"
    sed -i 's|/\.\./include|/../../include|' "libnaltvigo-dev/$lib/cmake/naltvigo/naltvigo-config.cmake"
    mv "$tree/share/doc/naltvigo" naltvigo-doc/usr/share/doc/naltvigo
    rm -r "$tree/share/naltvigo"
}
split_program() { # TREE
    mkdir -p cborc/usr/share/zsh
    mv "$1/bin" cborc/usr/bin
    mv "$1/share/man" "$1/share/bash-completion" "$1/share/fish" cborc/usr/share
    mv "$1/share/zsh/site-functions" cborc/usr/share/zsh/vendor-completions
    gzip -9n cborc/usr/share/man/man1/cborc.1
}

# The documents of each package: its licence, what changed, and, with what was built, what the gate proved.
add_documents() { # PACKAGE
    local doc=$1/usr/share/doc/$1 transcript=naltvigo-doc/usr/share/doc/naltvigo/transcript.txt
    # it names what one architecture has, so the package for all of them is the last, and has none
    mkdir -p "$doc"
    print_copyright >"$doc/copyright"
    gzip -9nc "$root/CHANGELOG.md" >"$doc/changelog.gz"
    printf 'naltvigo (%s) unstable; urgency=medium\n\n  * Package of version %s; changelog.gz has what changed.\n\n -- %s  %s\n' \
        "$debian_version" "$version" "$maintainer" "$(LC_ALL=C date -u -R -d "@$SOURCE_DATE_EPOCH")" | gzip -9n >"$doc/changelog.Debian.gz"
    case $1 in
    cborc | libnaltvigo2) [ ! -e $transcript ] || cp $transcript "$doc/transcript.$architecture.txt" ;;
    naltvigo-doc) rm -f $transcript ;;
    esac
}

# In Debian's form for machines; the Apache licence is on every Debian system.
print_copyright() {
    cat <<'COPYRIGHT'
Format: https://www.debian.org/doc/packaging-manuals/copyright-format/1.0/
Upstream-Name: naltvigo

Files: *
COPYRIGHT
    sed -n 's/^Copyright (c) /Copyright: /p' "$root/LICENSE-MIT"
    printf 'License: Expat or Apache-2.0\n\nLicense: Expat\n'
    sed '1,/^Copyright/d' "$root/LICENSE-MIT" | sed '1{/^$/d}; s/^$/./; s/^/ /'
    printf '\nLicense: Apache-2.0\n On Debian systems the text is in /usr/share/common-licenses/Apache-2.0.\n'
}

# The newest version of the C library among those whose symbols the package's files need.
newest_libc() { # PACKAGE
    find "$1" -type f -exec "${tools}objdump" -T {} + 2>/dev/null | grep -o 'GLIBC_[0-9.]*' | sed 's/GLIBC_//' | sort -V | tail -1
}

# A file counts in whole KiB, anything else as one KiB, as dpkg counts.
installed_size() { # PACKAGE
    find "$1" -printf '%y %s\n' | awk '{ size += $1 == "f" ? int(($2 + 1023) / 1024) : 1 } END { print size }'
}

build_package() { # PACKAGE FOLDER
    local name=$1 control=$1/DEBIAN/control architecture=$architecture file
    mkdir "$name/DEBIAN"
    awk -v RS= -v name="$name" '$2 == name' "$root/share/debian/control" | sed "s/@VERSION@/$debian_version/; s/@LIBC@/$(newest_libc "$name")/" >"$control"
    if grep -q '^Architecture: all' "$control"; then
        architecture=all
    else
        sed -i "1a Architecture: $architecture" "$control"
    fi
    sed -i "1a Version: $debian_version\nMaintainer: $maintainer\nPriority: optional\nInstalled-Size: $(installed_size "$name/usr")" "$control"
    if [ "$name" = libnaltvigo2 ]; then
        echo "libnaltvigo 2 libnaltvigo2 (>= $version)" >"$name/DEBIAN/shlibs"
        echo 'activate-noawait ldconfig' >"$name/DEBIAN/triggers"
    fi
    (cd "$name" && find usr -type f | LC_ALL=C sort | xargs md5sum >DEBIAN/md5sums)
    find "$name" -exec touch -hd "@$SOURCE_DATE_EPOCH" {} +
    file=$2/${name}_${debian_version}_$architecture.deb
    dpkg-deb --root-owner-group -Zxz -b "$name" "$file" >/dev/null
    echo "$file"
}
