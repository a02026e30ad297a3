# shellcheck shell=bash
# What program/install and program/install-library share: their words, which files are theirs, and how files get their
# names. The script that reads this sets `self`, its name in messages; FILES, the files below PREFIX; SUMS, the file with
# their sums; MADE, a line by which older versions marked their files, or nothing; and the function link_of, which prints
# a pattern for what a file leads to if it is a link. It puts the new files below $work.

usage() {
    echo "usage: $self [--remove] [PREFIX]" >&2
    exit 2
}
fails() {
    echo "$self: $1" >&2
    exit 1
}

# the words of the call: remove is yes or no, prefix the folder for which it installs, and at the one that is written
read_words() {
    local word named=no
    remove=no
    prefix="${PREFIX-}"
    for word in "$@"; do
        case $word in
            -h | --help)
                sed -n '2,/^[^#]/s/^# \{0,1\}//p' "$0"
                exit 0
                ;;
            --remove) remove=yes ;;
            '' | -*) usage ;;
            *)
                [ "$named" = no ] || usage
                named=yes
                prefix="$word"
                ;;
        esac
    done
    if [ -z "$prefix" ]; then
        [ -n "${HOME-}" ] || fails "there is no HOME; name a PREFIX"
        prefix="$HOME/.local"
    fi
    case $prefix in /*) ;; *) prefix="$PWD/$prefix" ;; esac
    while [ "${prefix%/}" != "$prefix" ]; do prefix="${prefix%/}"; done
    at="$prefix"
    if [ -n "${DESTDIR-}" ]; then
        case $DESTDIR in /*) at="${DESTDIR%/}$prefix" ;; *) at="$PWD/${DESTDIR%/}$prefix" ;; esac
    fi
}

# ---- what is there

is_there() { [ -e "$at/$1" ] || [ -L "$at/$1" ]; }
is_listed() { [ -f "$at/$SUMS" ] && grep -q -x "[0-9a-f]\{64\}  $1" "$at/$SUMS"; }
# the files that an earlier call wrote: those of this version and those of the one that is there
all_files() {
    { printf '%s\n' "${FILES[@]}" && { [ ! -f "$at/$SUMS" ] || sed -n 's/^[0-9a-f]\{64\}  //p' "$at/$SUMS"; }; } |
        awk '!seen[$0]++'
}
# whether an earlier call made this file, and nobody has changed it since
is_ours() {
    if [ "$1" = "$SUMS" ]; then
        [ ! -L "$at/$1" ] && [ -s "$at/$1" ] && ! grep -q -v '^[0-9a-f]\{64\}  [A-Za-z0-9_./-]*$' "$at/$1"
    elif [ -L "$at/$1" ]; then
        # shellcheck disable=SC2053 # the right side is a pattern
        is_listed "$1" && [[ $(readlink -- "$at/$1") == $(link_of "$1") ]]
    elif is_listed "$1"; then
        # there are two sums if a call was interrupted
        (cd "$at" && grep -F "  $1" "$SUMS" | grep -q -x -F "$(sha256sum -- "$1")")
    else
        [ -n "$MADE" ] && [ -f "$at/$1" ] && head -n 3 -- "$at/$1" | grep -q -a -F -e "$MADE"
    fi
}

take_away() {
    local file status=0
    while IFS= read -r file; do
        is_there "$file" || continue
        if ! is_ours "$file"; then
            echo "left $at/$file, which $self didn't make, or which was changed since"
        elif rm -f -- "$at/$file"; then
            echo "removed $at/$file"
        else
            status=1
        fi
    done < <(all_files)
    if [ "$status" -eq 0 ] && is_there "$SUMS" && is_ours "$SUMS"; then
        rm -f -- "$at/$SUMS" && echo "removed $at/$SUMS" || status=1
    fi
    return "$status"
}

refuse_others() {
    local file
    for file in "${FILES[@]}" "$SUMS"; do
        ! is_there "$file" || is_ours "$file" ||
            fails "$at/$file is there, and $self didn't make it, or it was changed since; nothing was written"
    done
}

# ---- the files get their names; until then the sums are those of the old and of the new ones

work=""
made=()
drop_made() {
    [ -z "$work" ] || rm -rf -- "$work"
    [ ${#made[@]} -eq 0 ] || rm -f -- "${made[@]}"
}
begin_work() {
    trap drop_made EXIT
    trap 'exit 130' INT TERM HUP
    work="$(mktemp -d)" || fails "no temporary folder can be made"
}
name() { mv -fT -- "$at/$1.$$.new" "$at/$1" || fails "$at/$1 can't be written"; }
is_made() { [ -e "$work/$1" ] || [ -L "$work/$1" ]; }

# gives all files below $work their names below PREFIX, and removes those of an earlier call that this one has no more
name_all() {
    local file
    for file in "${FILES[@]}"; do
        if is_made "$file"; then (cd "$work" && sha256sum -- "$file") || exit 1; fi
    done >"$work/sums"
    { cat "$work/sums" && { [ ! -f "$at/$SUMS" ] || cat -- "$at/$SUMS"; }; } >"$work/both"
    for file in "${FILES[@]}" "$SUMS"; do
        [ "$file" = "$SUMS" ] || is_made "$file" || continue
        made+=("$at/$file.$$.new")
        mkdir -p -- "$(dirname -- "$at/$file")" || fails "no folder for $at/$file; nothing was written"
        case $file in
            "$SUMS") cp -- "$work/both" "$at/$file.$$.new" && chmod 644 -- "$at/$file.$$.new" ;;
            *) cp -P --preserve=mode -- "$work/$file" "$at/$file.$$.new" ;;
        esac || fails "$at/$file can't be written; nothing was written"
    done
    name "$SUMS"
    for file in "${FILES[@]}"; do
        is_made "$file" || continue
        name "$file"
        echo "wrote $at/$file"
    done
    while IFS= read -r file; do
        if ! is_made "$file" && is_there "$file" && is_ours "$file"; then
            rm -f -- "$at/$file" && echo "removed $at/$file" || fails "$at/$file can't be removed"
        fi
    done < <(all_files)
    cp -- "$work/sums" "$at/$SUMS.$$.new" && chmod 644 -- "$at/$SUMS.$$.new" || fails "$at/$SUMS can't be written"
    name "$SUMS"
    echo "wrote $at/$SUMS"
}
