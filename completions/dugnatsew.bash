# Completion of dugnatsew's arguments for bash: source this file, or install it where bash looks.
# It is made by tools/interface.py.

_dugnatsew() {
    local word=${COMP_WORDS[COMP_CWORD]} words=""
    COMPREPLY=()
    case $(_dugnatsew_form "${COMP_WORDS[1]}" "$COMP_CWORD") in
        COMMAND) words="boot info data explain caveats map replay sweep chart cuts check seal elf firm table otp uf2 plan load stage copy list script gen --help -h help --version" ;;
        CPU) words="arm riscv" ;;
        KIND) words="normal bootsel update=0x" ;;
        FAMILY) words="rp2040 absolute data rp2350-arm-s rp2350-riscv rp2350-arm-ns" ;;
        FILE)
            compopt -o filenames 2> /dev/null
            mapfile -t COMPREPLY < <(compgen -f -- "$word")
            ;;
    esac
    if [ -n "$words" ]; then
        mapfile -t COMPREPLY < <(compgen -W "$words" -- "$word")
    fi
    # eight digits follow
    if [ "${COMPREPLY[*]}" = "update=0x" ]; then
        compopt -o nospace 2> /dev/null
    fi
}

# What stands at a place of the arguments that begin with this command.
_dugnatsew_form() {
    local -a forms=(COMMAND)
    case $1 in
        boot | data | explain | caveats) forms+=(FILE FILE CPU KIND) ;;
        info) forms+=(FILE FILE CPU) ;;
        map) forms+=(FILE FILE CPU FILE) ;;
        replay | chart | check) forms+=(FILE FILE CPU FILE FILE FILE) ;;
        sweep | cuts | plan | load | stage) forms+=(FILE FILE CPU FILE FILE) ;;
        seal | elf | script) forms+=(FILE FILE FILE) ;;
        firm) forms+=(FILE CPU) ;;
        table | otp | copy) forms+=(FILE FILE) ;;
        uf2) forms+=(FILE FAMILY FILE) ;;
        list) forms+=(FILE) ;;
        gen) forms+=(N) ;;
        help) forms+=(COMMAND) ;;
    esac
    echo "${forms[$2 - 1]}"
}

complete -F _dugnatsew dugnatsew
