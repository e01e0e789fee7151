# Completes the commands of market and its pages of help, for bash.
_market() {
    local words=""
    case "$COMP_CWORD:${COMP_WORDS[1]}" in
        1:*) words="run trace bill ask check serve free demo relay auctioneer device help version --help --version" ;;
        2:help) words="refusals status" ;;
    esac
    mapfile -t COMPREPLY < <(compgen -W "$words" -- "${COMP_WORDS[COMP_CWORD]}")
}
complete -F _market market
