# Sourced by the scripts that run the program: what has to come before it where its first word is `serve`.
before=()
if [ "${1-}" = serve ]; then
    # A server needs a descriptor for each connection: as many as the system allows.
    ulimit -n "$(ulimit -Hn)" 2>/dev/null
    # It looks for the first three itself, and then ends cleanly; the last comes at a limit of the size of files, and
    # then the write fails. Without a program that can hold them back each ends it at once.
    if env --block-signal=TERM,INT,HUP,XFSZ true 2>/dev/null; then
        before=(env --block-signal=TERM,INT,HUP,XFSZ)
    fi
fi
