"""The programs that stand in place of the system's on a machine."""

SYSTEMCTL = """\
#!/bin/sh -e
# In place of systemd: the desk's service with its Restart=always, nginx's reload and restart, the
# publication, a standby's run.
# credential FROM FOLDER COMMAND..: as LoadCredential does, for the account that the command changes
# to, whose folder it is.
credential() {{
    from=$1 folder=$2
    shift 2
    rm -rf "{room}/credentials"
    mkdir -m 711 "{room}/credentials"
    "$@" sh -c 'umask 077; cat > "$1/credential"' sh "$folder" < "$from"
    mv "$folder/credential" "{room}/credentials"
    export CREDENTIALS_DIRECTORY="{room}/credentials"
}}
fails() {{
    echo "Job for $1 failed because the control process exited with error code." >&2
    echo "See \\"systemctl status $1\\" and \\"journalctl -xeu $1\\" for details." >&2
    exit 1
}}
case "$*" in
    'start kovelamiru-desk' | 'enable --now kovelamiru-desk' | 'restart kovelamiru-desk')
        [ "$1" != restart ] || "$0" stop kovelamiru-desk
        setsid "{bin}/supervise" > /dev/null 2>&1 < /dev/null &
        until "{bin}/listens" {port}; do sleep 0.02; done
        ;;
    'stop kovelamiru-desk' | 'disable --now kovelamiru-desk kovelamiru-publish.timer')
        [ ! -e "{room}/supervise.pid" ] || kill "$(cat "{room}/supervise.pid")"
        while "{bin}/listens" {port} || [ -e "{room}/supervise.pid" ]; do sleep 0.02; done
        ;;
    'start kovelamiru-standby')
        . "{room}/etc/default/kovelamiru-standby"
        credential "{room}/etc/kovelamiru-standby.key" "{room}/standby" {as_desk}
        {as_desk} "{bin}/desk-standby" "{room}/state/desk.db" "{room}/standby/minutes.txt" \\
            --cert-key "{room}/credentials/credential" $STANDBY \\
            >> "{room}/journal.desk-standby" 2>&1 || fails kovelamiru-standby.service
        ;;
    'is-active kovelamiru-desk')
        if [ -e "{room}/supervise.pid" ]; then echo active; else echo inactive; exit 3; fi
        ;;
    'reload nginx' | 'restart nginx')
        nginx -t -q -p "{room}/nginx/" -e "{room}/nginx/error.log" -c nginx.conf
        master=$(cat "{room}/nginx/pid")
        workers=$(cat "/proc/$master/task/$master/children")
        kill -HUP "$master"
        # (a restart waits for no request)
        [ "$1" = reload ] || kill -TERM $workers || :
        for worker in $workers; do while [ -e "/proc/$worker/exe" ]; do sleep 0.02; done; done
        ;;
    'enable --now kovelamiru-publish.timer' | 'disable --now kovelamiru-standby.timer') ;;
    'stop kovelamiru-standby' | 'reset-failed kovelamiru-standby*') ;;
    'start kovelamiru-publish')
        . "{room}/etc/default/kovelamiru-publish"
        credential "{room}/etc/kovelamiru-publish.token" "{room}/publish" {as_publish}
        {as_publish} "{bin}/desk-publish" "{room}/publish/published" --token-file \\
            "{room}/credentials/credential" $PUBLISH >> "{room}/journal.desk-publish" 2>&1 ||
            fails kovelamiru-publish.service
        ;;
    *)
        echo "checks/runbooks: no systemctl $*" >&2
        exit 1
        ;;
esac
"""
SUPERVISE = """\
#!/bin/sh
echo $$ > "{room}/supervise.pid"
trap 'kill "$child"; wait "$child"; rm "{room}/supervise.pid"; exit 0' TERM
cd "{room}/state"
while :; do
    {as_desk} "{program}" serve desk.db {port} 1000000 2>> "{room}/journal.desk" &
    child=$!
    wait "$child" || :
    sleep 0.2
done
"""
LISTENS = """\
#!/bin/sh
grep -q ":$(printf %04X "$1") 00000000:0000 0A" /proc/net/tcp
"""
RUNS_AS = "setpriv --reuid={0} --regid={0} --clear-groups --"
