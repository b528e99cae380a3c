# shellcheck shell=bash
# The library as it is installed: the archive and the shared library, each with the object of the kit that calls `malloc`.

# The version of the header, as 2.0. `top` is the folder of the repository.
# shellcheck disable=SC2154
version() {
    sed -n 's/^#define CUNDARRIX_VERSION_M[AI][JN]OR //p' "$top/bindings/c/cundarrix.h" | paste -sd .
}

# Makes libcundarrix.a and libcundarrix.so.VERSION of the two archives in a folder, where they aren't there or are older.
make_libraries() {
    local folder=$1 both=libcundarrix.a shared number
    number=$(version)
    shared=libcundarrix.so.$number
    [ "$folder/$shared" -nt "$folder/libiscsi_c.a" ] && [ "$folder/$both" -nt "$folder/libiscsi_c.a" ] && return
    (
        cd "$folder" && rm -f "$both" || exit
        printf '%s\n' "create $both" 'addlib libiscsi_c.a' 'addlib liblibc_c.a' save end | ar -M || exit
        # Its interface is what the header calls.
        echo "{ global: iscsi_c_*; local: *; };" > exports &&
            cc -shared -o "$shared" "-Wl,-soname,libcundarrix.so.${number%.*}" -Wl,--version-script=exports -Wl,-z,relro,-z,now \
                -Wl,--no-undefined -Wl,--whole-archive "$both" -Wl,--no-whole-archive && rm exports
    )
}
