# The library of a commit beside that of the working tree, in a shell function; the scripts that measure a change read
# this file. With STATICLIB_DIR set, the library there is taken for that of the working tree, with BEFORE_DIR the one
# there for that of the commit, and it is not built. A commit from before tools/build has to be given so: today's toolchain does not build it.

library() { # FOLDER LOG
    (cd "$1" && tools/build strips) >"$2" 2>&1 || { cat "$2"; exit 1; }
}

# Makes libbefore.a in the folder `work`. Sets `commit`, and for rustc `libraries`: the two, and total_before where the
# handle of the first has a total.
both_libraries() { # COMMIT
    local before=target/bench/before old
    commit=$(git rev-parse --verify "$1^{commit}")
    mkdir -p "$work"
    [ -n "${STATICLIB_DIR:-}" ] || library . "$work/library.log"
    if [ -z "${BEFORE_DIR:-}" ]; then
        [ -d "$before" ] || git clone -q --shared --no-checkout . "$before"
        git -C "$before" checkout -q "$commit"
        library "$before" "$work/library.log"
    fi
    # What the library of the commit defines takes names that begin with before_; memcpy and memset keep theirs.
    old=${BEFORE_DIR:-$before/target/staticlib}/libstrips.a
    nm -P --defined-only "$old" | awk 'NF > 2 { print $1, "before_" $1 }' >"$work/names"
    objcopy --redefine-syms="$work/names" "$old" "$work/libbefore.a"
    libraries=(-L "native=${STATICLIB_DIR:-target/staticlib}" -L "native=$work" -l static=strips -l static=before
        --check-cfg 'cfg(total_before)')
    case $(git show "$commit:include/strips.h" | tr -s '[:space:]' ' ') in
    *'uint64_t length, uint64_t total,'*) libraries+=(--cfg total_before) ;;
    esac
}
