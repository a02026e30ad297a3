# shellcheck shell=bash
# Object files that scripts of tests/ make without the program, and the assembly texts that they are made of. It is read
# by a script.

# an assembly text of that many instructions without effect, and a halt
text_of() {
    printf '.object 1 3 1 70 2 3\n.bank 4 634\n.bank 4 662\n'
    yes nop | head -n "$1"
    echo halt
}

# a number as four bytes, the lowest first
four_bytes() {
    local bytes
    printf -v bytes '\\x%02x' $(($1 & 255)) $(($1 >> 8 & 255)) $(($1 >> 16 & 255)) $(($1 >> 24 & 255))
    # shellcheck disable=SC2059 # the bytes are the format
    printf "$bytes"
}

# the object file of that text, byte by byte
object_of() {
    printf 'GRLT\x01\0\x03\x01\x46\x02\x03\x02'
    four_bytes 4 && four_bytes 634 && four_bytes 4 && four_bytes 662
    printf '\0\0'
    four_bytes 0
    four_bytes $(($1 + 1))
    head -c $((16 * $1)) /dev/zero
    printf '\x01'
    head -c 15 /dev/zero
}
