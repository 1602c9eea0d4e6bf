# Completions of quic-wire for bash: source this file, or put it as `quic-wire` into
# ~/.local/share/bash-completion/completions.

# The words that may stand here, by the mode and the word before.
_quic_wire_words() {
    case $2 in
        --side) echo 'client server' ;;
        --at) echo 'client server path' ;;
        --color) echo 'always never auto' ;;
        --cid-len) echo {0..20} ;;
        --versions) echo '1 6b3343cf 1,6b3343cf' ;;
        --frame)
            echo 'PADDING PING ACK RESET_STREAM STOP_SENDING CRYPTO NEW_TOKEN STREAM MAX_DATA MAX_STREAM_DATA'
            echo 'MAX_STREAMS DATA_BLOCKED STREAM_DATA_BLOCKED STREAMS_BLOCKED NEW_CONNECTION_ID RETIRE_CONNECTION_ID'
            echo 'PATH_CHALLENGE PATH_RESPONSE CONNECTION_CLOSE HANDSHAKE_DONE DATAGRAM ACK_FREQUENCY IMMEDIATE_ACK'
            ;;
        *)
            case $1 in
                frames) echo '--base64 --json --color --rfc --quinn --strict' ;;
                canon) echo '--base64 --json --color --rfc --quinn' ;;
                datagram) echo '--base64 --json --color --rfc --quinn --cid-len --versions --grease' ;;
                params) echo '--base64 --json --color --rfc --quinn --side' ;;
                number) echo '--base64 --json --color --rfc --quinn --largest' ;;
                ranges) echo '--base64 --json --color' ;;
                capture)
                    echo '--json --color --keylog --qlog --connection --side --number --frame --rejected --lost --help'
                    ;;
                check)
                    echo '--json --sarif --color --keylog --qlog --at --only --allow --should --opened --rules --help'
                    ;;
                *)
                    echo '--base64 --json --color --rfc --quinn --strict --cid-len --versions --grease --side --largest'
                    echo '--keylog --qlog --connection --number --frame --rejected --lost --at --only --allow --should'
                    echo '--opened --rules --sarif --help --version'
                    ;;
            esac
            ;;
    esac
}

_quic_wire() {
    local current=${COMP_WORDS[COMP_CWORD]} before=${COMP_WORDS[COMP_CWORD - 1]} mode='' word
    # `=` is a word of its own where it breaks words.
    if [ "$current" = = ]; then
        current=''
    elif [ "$before" = = ]; then
        before=${COMP_WORDS[COMP_CWORD - 2]}
    fi
    for word in "${COMP_WORDS[@]:1:COMP_CWORD-1}"; do
        case $word in
            frames | canon | datagram | params | number | ranges | capture | check) mode=$word && break ;;
        esac
    done
    case $before,$current in
        --qlog,*)
            compopt -o filenames 2>/dev/null
            mapfile -t COMPREPLY < <(compgen -d -- "$current")
            ;;
        --keylog,*)
            compopt -o filenames 2>/dev/null
            mapfile -t COMPREPLY < <(compgen -f -- "$current")
            ;;
        --connection,* | --number,* | --only,* | --allow,* | --opened,*) ;;
        --side,* | --at,* | --color,* | --cid-len,* | --versions,* | --frame,* | *,-*)
            mapfile -t COMPREPLY < <(compgen -W "$(_quic_wire_words "$mode" "$before")" -- "$current")
            ;;
        *)
            if [ -z "$mode" ]; then
                mapfile -t COMPREPLY < <(compgen -W 'frames canon datagram params number ranges capture check' -- "$current")
            else
                compopt -o filenames 2>/dev/null
                mapfile -t COMPREPLY < <(compgen -f -- "$current")
            fi
            ;;
    esac
}

complete -F _quic_wire quic-wire
