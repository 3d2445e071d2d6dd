# Completion of mod_deployer's words in bash.

# The mods: the folders below stage that begin with the text.
_mod_deployer_mods() {
    local folder
    for folder in stage/"$1"*/; do
        [ -d "$folder" ] || continue
        folder=${folder%/}
        printf '%s\n' "${folder#stage/}"
    done
}

# The paths below any mod that begin with the text; folders end with a slash.
_mod_deployer_paths() {
    local mod found
    for mod in stage/*/; do
        for found in "$mod$1"*; do
            [ -e "$found" ] || continue
            [ -d "$found" ] && found=$found/
            printf '%s\n' "${found#"$mod"}"
        done
    done | sort -u
}

# The actions of an option of settle.
_mod_deployer_actions() {
    case $1 in
        --replaced) echo "aside import revert" ;;
        --changed) echo "keep" ;;
        --deleted) echo "restore drop" ;;
        --source-deleted) echo "restore drop" ;;
        --gone) echo "drop" ;;
    esac
}

# Offers the lines of the input, and quotes them where they need it.
_mod_deployer_names() {
    compopt -o filenames 2>/dev/null
    mapfile -t COMPREPLY
    case ${COMPREPLY[*]} in
        */) compopt -o nospace 2>/dev/null ;;
    esac
}

_mod_deployer_words() {
    mapfile -t COMPREPLY < <(compgen -W "$1" -- "$word")
}

_mod_deployer() {
    local word=${COMP_WORDS[COMP_CWORD]} before=${COMP_WORDS[COMP_CWORD - 1]}
    local commands="" options=""
    commands+=" order"
    commands+=" winners"
    commands+=" conflicts"
    commands+=" plan"
    commands+=" check"
    commands+=" status"
    commands+=" deploy"
    commands+=" purge"
    commands+=" settle"
    commands+=" recover"
    commands+=" enable"
    commands+=" disable"
    commands+=" rule"
    commands+=" drop-rule"
    commands+=" override"
    commands+=" drop-override"
    commands+=" upgrade"
    commands+=" release"
    commands+=" batch"
    commands+=" sample"
    options+=" --replaced"
    options+=" --changed"
    options+=" --deleted"
    options+=" --source-deleted"
    options+=" --gone"
    options+=" --from-input"
    local kinds="before after requires conflicts recommends"
    # A name is matched as it is, without what quotes it.
    local name=${word//[\\\"\']/}
    COMPREPLY=()
    if [ "$COMP_CWORD" -eq 1 ]; then
        _mod_deployer_words "$commands"
        return
    fi
    case ${COMP_WORDS[1]}:$COMP_CWORD in
        enable:2 | disable:2 | rule:2 | rule:4 | drop-rule:2 | drop-rule:4 | override:3 | release:2)
            _mod_deployer_names < <(_mod_deployer_mods "$name")
            ;;
        override:2 | drop-override:2)
            _mod_deployer_names < <(_mod_deployer_paths "$name")
            ;;
        rule:3 | drop-rule:3)
            _mod_deployer_words "$kinds"
            ;;
        settle:*)
            # The shell parts `--replaced=aside` into three words.
            if [ "$word" = = ]; then
                word=
                _mod_deployer_words "$(_mod_deployer_actions "$before")"
            elif [ "$before" = = ]; then
                _mod_deployer_words "$(_mod_deployer_actions "${COMP_WORDS[COMP_CWORD - 2]}")"
            elif [ -n "$(_mod_deployer_actions "$before")" ]; then
                _mod_deployer_words "$(_mod_deployer_actions "$before")"
            else
                _mod_deployer_words "$options"
            fi
            ;;
    esac
}

complete -F _mod_deployer mod_deployer
