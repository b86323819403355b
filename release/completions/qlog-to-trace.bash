# Completion of qlog-to-trace for bash.

_qlog_to_trace() {
    local current=${COMP_WORDS[COMP_CWORD]} before=${COMP_WORDS[COMP_CWORD - 1]}
    local words=
    case $before in
        --format) words='1 2 3' ;;
        --vantage) words='client server' ;;
        --dialect) words='quic-go quic-go-0.50 quic-go-0.59 ngtcp2 aioquic openssl neqo chromium quinn quiche mvfst generic' ;;
        --unit) words='us ns' ;;
        --window) words='newreno reported' ;;
        --loss-by-number) words='must may' ;;
        --threshold-counts) words='numbers packets' ;;
        --window-overshoot | --sample-eliciting-only | --refresh-min-rtt | --reset-rtt | --latest-rtt-less-delay | --recovery-by-order) words='yes no' ;;
        --connection | --timer-late | --timer-late-us | --slack-us | --slack-bytes | --packet-threshold | --timer-early-us | --time-threshold-eighths) return ;;
    esac
    if [ -z "$words" ] && [[ $current == -* ]]; then
        words='--format --version --vantage --connection --dialect --notes --places --timer-late --timer-late-us
            --refresh-min-rtt --slack-us --slack-bytes --unit --window --window-overshoot --sample-eliciting-only
            --packet-threshold --timer-early-us --loss-by-number --threshold-counts --reset-rtt
            --latest-rtt-less-delay --time-threshold-eighths --recovery-by-order --help'
    fi
    if [ -n "$words" ]; then
        mapfile -t COMPREPLY < <(compgen -W "$words" -- "$current")
    else
        compopt -o filenames
        mapfile -t COMPREPLY < <(compgen -f -- "$current")
    fi
}
complete -F _qlog_to_trace qlog-to-trace
