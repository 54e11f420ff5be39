# Prints what zsh's completion offers for the last word of a command line, one a line, and `files` where it offers the
# names of files.
# usage: zsh -f tests/packages/offers.zsh FOLDER LINE     FOLDER has the completion, or is empty where zsh has it by itself; LINE
#                                              is as it was typed
zmodload zsh/zpty || exit 2
setup=$(mktemp) || exit 2
trap 'rm -f $setup' EXIT
cat > $setup <<'END'
PROMPT=
autoload -Uz compinit
[[ -z $FOLDER ]] || fpath=($FOLDER $fpath)
compinit -u -D
zstyle ':completion:*' insert-tab false
bindkey '^I' complete-word
# What is offered is printed in place of being shown.
compadd() {
    local -a offered
    if [[ ${@[1,(i)(-|--)]} == *-(O|A|D)\ * ]]; then
        builtin compadd "$@"
        return
    fi
    builtin compadd -A offered "$@"
    (( $#offered == 0 )) || print -rl -- "offered "${^offered}
}
_files() { print -r -- 'offered files' }
finish() { print -r -- finished; exit }
comppostfuncs=(finish)
print -r -- ready
END
export FOLDER=$1
zpty shell zsh -f -i
zpty -w shell "source $setup"
until [[ $line == ready* ]]; do zpty -r shell line || exit 2; done
zpty -w -n shell "$2"$'\t'
until [[ $line == finished* ]]; do
    zpty -r shell line || exit 2
    [[ $line != *'offered '* ]] || print -r -- ${${line##*offered }%%$'\r'*}
done
