# shellcheck shell=bash
# To be sourced, with `top` the repository. Makes kits of links, one with a compiler that keeps what
# it makes; no proof covers a compilation. Sets `kit`, the kit's folder.
kit=$(dirname "$(rt doc)")

# linked_kit FOLDER: makes a kit of links there. rt finds its kit by its own folder, so FOLDER/bin/rt
# is a copy.
linked_kit() {
    local part link folder=$1
    mkdir -p "$folder/bin" "$folder/toolchain/bin"
    for part in "$kit"/* "$kit/bin"/* "$kit/toolchain"/* "$kit/toolchain/bin"/*; do
        link=$folder${part#"$kit"}
        [ -e "$link" ] || ln -s "$part" "$link"
    done
    rm "$folder"/bin/rt*
    cp "$kit"/bin/rt* "$folder/bin"
}

# keeping_kit FOLDER: makes a kit of links whose compiler leaves the last module that it was given as
# FOLDER/kept.bc, and that module compiled at -O3, without memory checks, as FOLDER/kept.o.
keeping_kit() {
    local folder=$1
    linked_kit "$folder"
    rm "$folder/toolchain/bin/clang"
    cat > "$folder/toolchain/bin/clang" <<KEEP
#!/bin/sh
"$kit/toolchain/bin/clang" "\$@" || exit
cp module.bc "$folder/kept.bc"
for word; do
    shift
    case \$word in
    -O*) set -- "\$@" -O3 ;;
    -fsanitize=*) ;;
    module.o) set -- "\$@" "$folder/kept.o" ;;
    *) set -- "\$@" "\$word" ;;
    esac
done
exec "$kit/toolchain/bin/clang" "\$@"
KEEP
    chmod +x "$folder/toolchain/bin/clang"
}

# made_library KIT ARCHIVE: makes the proved C library with that kit's compiler, over what rt ci kept
# here, else by rt lib. rt shares what checks keep between checkouts, but not with a kit of links; so
# the true kit runs first.
made_library() {
    "$top/tools/kept-library" bjargolsk_c "$2" "$1/toolchain" || {
        (cd "$top/crates/bjargolsk_c" && rt lib && { [ "$1" = "$kit" ] || "$1/bin/rt" lib; }) && cp "$top/crates/bjargolsk_c/out/libbjargolsk_c.a" "$2"
    }
}
