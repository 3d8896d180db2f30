# Completions of dukpt for bash, read by: . share/completions/dukpt.bash

# What may stand after each command. A word in capitals is a value's name, with two dots where several
# may stand. The test bench compares these arguments with the program's help.
declare -gA _dukpt_arguments=(
    [derive]="BDK KSN --initial --trace --all --explain --json --progress -h --help"
    [walk]="BDK IKSN COUNT --skip=K --ksn --initial --explain --json --progress -h --help"
    [initial]="BDK IKSN --explain --json --progress -h --help"
    [issue]="BDK LOADING IKSN COUNT --ledger=FILE --bdk-kcv=KCV --out=FILE --skip-issued --again --explain --json --progress -h --help"
    [registers]="BDK KSN --initial --explain --json --progress -h --help"
    [kcv]="KEY.. --components --show --explain --json --progress -h --help"
    [lmk]="COMPONENT.. --new --key=KEY --fields=FIELDS --pad=PAD --explain --json --progress -h --help"
    [mac]="KEY TEXT --cmac --hex --explain --json --progress -h --help"
    [data]="KEY TEXT --iv=BLOCK --decipher --hex --explain --json --progress -h --help"
    [pin]="PIN PAN --key=KEY --explain --json --progress -h --help"
    [unpin]="BLOCK PAN --key=KEY --show --explain --json --progress -h --help"
    [translate]="BLOCK PAN BDK KSN ZONE --initial --explain --json --progress -h --help"
    [wrap]="KBPK FIELDS KEY PAD --explain --json --progress -h --help"
    [unwrap]="KBPK BLOCK --explain --json --progress -h --help"
    [show]="KIND WHAT --show --key=BDK --initial --explain --json --progress -h --help"
    [request]="BDK KSN PAN PIN AMOUNT --reverse=NUMBER --initial --explain --json --progress -h --help"
    [reply]="BDK REQUEST ANSWER --initial --explain --json --progress -h --help"
    [find]="BDK WHAT --from=KSN --window=N --text=TEXT --hex --pan=PAN --clear=BLOCK --initial --explain --json --progress -h --help"
    [run]="CONFIG SCRIPT --journal --explain -h --help"
    [serve]="CONFIG --log=FILE --journal=FILE --explain -h --help"
    [new-log]="FILE RECORDS --explain --json --progress -h --help"
    [new-journal]="FILE RECORDS --explain --json --progress -h --help"
    [new-ledger]="FILE RECORDS --explain --json --progress -h --help"
    [grow-journal]="FILE RECORDS --explain --json --progress -h --help"
    [copy-journal]="OLD NEW --explain --json --progress -h --help"
    [copy-ledger]="OLD NEW --explain --json --progress -h --help"
    [help]="COMMAND"
)
_dukpt_options="--explain --json --progress -h --help -V --version"

# Which value the last of these words is; nothing where it is none.
_dukpt_value() {
    local named=" ${_dukpt_arguments[${2:-none}]-} " values=() option="" word
    for word in $named; do
        [[ $word == -* ]] || values+=("$word")
    done
    for word in "${@:3:$#-3}"; do
        if [[ $option ]]; then
            option=
        elif [[ $word == --*=* || $word != --* ]]; then
            [[ $word == -* || ${values[0]-} == *.. ]] || values=("${values[@]:1}")
        elif [[ $named == *" $word="* ]]; then
            option=$word
        fi
    done
    word=${!#}
    [[ $word == --*=* ]] && option=${word%%=*}
    if [[ ! $option ]]; then
        echo "${values[0]-}"
    elif [[ $named == *" $option="* ]]; then
        word=${named#* "$option"=}
        echo "${word%% *}"
    fi
}

# Offers the files that begin so. Bash has cut the word at its = and @.
_dukpt_files() {
    compopt -o filenames 2>/dev/null
    mapfile -t COMPREPLY < <(compgen -f -- "$1")
}

_dukpt() {
    local words=() word offered=
    # Bash cuts its own words at = and @. The dot stands for the cursor.
    read -ra words <<<"${COMP_LINE:0:COMP_POINT}."
    words[-1]=${words[-1]%.}
    # These may stand before the command too.
    while [[ ${words[1]} =~ ^--(explain|json|progress)$ && ${#words[@]} -gt 2 ]]; do
        words=("${words[0]}" "${words[@]:2}")
    done
    word=${words[-1]}
    if ((${#words[@]} == 2)); then
        offered="${!_dukpt_arguments[*]} $_dukpt_options"
    elif [[ $word == -* && $word != --*=* ]]; then
        for offered in ${_dukpt_arguments[${words[1]:-none}]-}; do
            [[ $offered == -* ]] && COMPREPLY+=($(compgen -W "${offered%%=*}" -- "$word"))
        done
        return
    else
        [[ $word == --*=* ]] && word=${word#*=}
        case ${words[1]}:$(_dukpt_value "${words[@]}") in
            *:COMMAND) offered=${!_dukpt_arguments[*]} ;;
            *:KIND) offered="frame block image log journal ledger" ;;
            *:CONFIG | *:SCRIPT | *:FILE | *:OLD | *:NEW) _dukpt_files "$word"; return ;;
            unwrap:BLOCK) ;;
            # A secret may stand in a file.
            *:BDK | *:KBPK | *:LOADING | *:PIN | *:PAN | *:ZONE | *:KEY | *:KEY.. | *:COMPONENT.. | *:BLOCK)
                [[ $word == @* ]] && _dukpt_files "${word#@}"
                return ;;
            # A log or a journal is a file too.
            *:WHAT) _dukpt_files "${word#@}"; return ;;
        esac
    fi
    COMPREPLY=($(compgen -W "$offered" -- "$word"))
}

complete -F _dukpt dukpt
