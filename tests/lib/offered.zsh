# What zsh offers after words: offered.zsh FOLDER WORDS, where FOLDER has the function _ghostrider. An interactive zsh
# is given the words and two tabs. compinit gets no file with -d: -d turns its dump on again in spite of -D, and as root
# the dump would replace the file that it names, /dev/null too.
zmodload zsh/zpty || exit 1
zpty -b inner zsh -f -i
shown=""
# reads what the inner zsh prints until it has the pattern, or until nothing came for that many tenths of a second
read_until() {
    local line still=0
    while ((still < $2)) && [[ -z $1 || $shown != *$~1* ]]; do
        if zpty -r -t inner line; then
            shown+=$line
            still=0
        else
            sleep 0.1
            still=$((still + 1))
        fi
    done
}
zpty -w inner "fpath=(${(q)1} \$fpath); autoload -Uz compinit; compinit -u -D; LISTMAX=1000; stty cols 300
print be''gun"
read_until begun 200
shown=""
zpty -w -n inner "ghostrider $2"$'\t\t'
# the words come back first, and the list of options, each with its text, later
read_until '  -- ' 100
read_until '' 10
print -r -- "$shown"
zpty -d inner
