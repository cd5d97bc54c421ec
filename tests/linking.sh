# What a program sees that includes the header and links the library: languages, versions, and what the library holds and calls. For tests/run, which has `library`, `warnings` and `out`.
# shellcheck shell=bash disable=SC2154

# the header in each language that it is for, without a warning
languages() {
    local compiler standard language
    for compiler in gcc clang; do
        command -v "$compiler" >"$out/compiler" || continue
        for standard in c99 c11 c17 c++98 c++11 c++20; do
            language=c
            [ "$standard" = "${standard#c++}" ] || language=c++
            # shellcheck disable=SC2086
            "$compiler" -x "$language" -std="$standard" $warnings -Wunused -O2 -Iinclude -c tests/header.c -o "$out/header_${compiler}_$standard.o"
        done
        echo "header: no warning by $compiler, from C99 to C17 and from C++98 to C++20"
    done
}

# a header links with the library of its own version alone, and compiles only where structs are laid out as in the library; what is said otherwise has the name
versions() {
    local other=$out/version_2 flags
    mkdir -p "$other"
    sed 's/^\(#define BULITAMPAW_VERSION\) 1$/\1 2/' include/bulitampaw.h >"$other/bulitampaw.h"
    objcopy --redefine-sym bulitampaw_version_1=bulitampaw_version_2 "$library" "$other/libbulitampaw.a"
    printf '#include <bulitampaw.h>\nint main(void) { return 0; }\n' >"$other/includes.c"
    builds() { # HEADER'S FOLDER, LIBRARY
        # shellcheck disable=SC2086
        gcc -std=c99 $flags -I"$1" "$other/includes.c" "$2" -o "$other/includes" 2>"$other/said"
    }
    fails_by() { # NAME, HEADER'S FOLDER, LIBRARY
        if builds "$2" "$3" || ! grep -q "$1" "$other/said"; then
            echo "versions: $flags, the header of $2 and $3 are not refused by $1"
            cat "$other/said"
            return 1
        fi
    }
    for flags in -O0 '-O2 -ffunction-sections -fdata-sections -Wl,--gc-sections'; do
        builds include "$library"
        builds "$other" "$other/libbulitampaw.a"
        fails_by bulitampaw_version_2 "$other" "$library"
        fails_by bulitampaw_version_1 include "$other/libbulitampaw.a"
    done
    flags=-fpack-struct=1
    fails_by bulitampaw_session_has_592_bytes include "$library"
    echo 'versions: header and library go together where version and layout are the same, and not where one differs'
}

# the library holds no memory that could change, and calls nothing but three functions of the C library
alone() {
    local held called
    held=$(objdump -h "$library" | awk '$2 ~ /^\.(data|bss|tdata|tbss)/ && $2 !~ /^\.data\.rel\.ro/ && $3 !~ /^0+$/ { print $2 }')
    called=$(nm -u "$library" | awk '$1 == "U" && $2 !~ /^(memcpy|memmove|memset)$/ { print $2 }')
    if [ -n "$held$called" ]; then
        echo "alone: the library holds '$held' and calls '$called'"
        return 1
    fi
    echo 'alone: the library holds no memory, and calls memcpy, memmove and memset at most'
}
