# What tests/pages.d/commands uses: bash functions, for root in a Debian that is thrown away. $it is the file of the command.
# shellcheck shell=bash disable=SC1090,SC2016,SC2034,SC2154
set -euo pipefail
modules=$(pkg-config --variable=giomoduledir gio-2.0)
desktop=/org/gnome/desktop

# says TEXT: the command prints this, whatever its status
says() {
    [ "$(. "$it" 2>&1)" = "$1" ]
}
# fails COMMAND..
fails() {
    if "$@"; then return 1; fi
}
# as_desk COMMAND..: as a user without rights
as_desk() {
    runuser -u desk -- env HOME=/home/desk "$@"
}
# starts STORE RUNNER..: starts gnome-calculator on a screen that nobody sees. Its window has the mode that is set in the store, and the module
# prints no warning. The store's database is that of the variable `database`, or user.
starts() {
    local store=$1
    shift
    cd "$(mktemp -d)"
    chmod 777 .
    echo "user-db:${database-user}" > profile
    "$@" mkdir -p "$store"
    (profile=$PWD/profile && cd "$store" && "$@" dconfdb write -p "$profile" /org/gnome/calculator/button-mode "'programming'")
    "$@" xvfb-run -a dbus-run-session -- bash -c "$on_the_bus"
    fails grep -i dconfdb said
    cd ~/dconfdb
}
# What `starts` runs in a session.
on_the_bus='
names="gdbus call --session -d org.freedesktop.DBus -o /org/freedesktop/DBus -m org.freedesktop.DBus.ListNames"
mode="gdbus call --session -o /org/gnome/Calculator/window/1 -m org.gtk.Actions.Describe mode"
. "$it" > said 2>&1 &
for _ in $(seq 300); do
    for name in $($names | grep -o ":1\.[0-9]*"); do
        if $mode -d "$name" 2> /dev/null | grep programming; then exit 0; fi
    done
    sleep 0.1
done
cat said
exit 1
'
# Compiles the header's example, x.c, and runs it.
compiles() {
    cd "$(mktemp -d)"
    sed -n '/^ \*     #include <dconfdb.h>/,/^ \*     }/s/^ \*     //p' ~/dconfdb/capi/libdconfdb/dconfdb.h > x.c
    . "$it"
    [ "$(DCONFDB_STORE=$PWD ./a.out)" = mine ]
}
# A user has two settings in dconf and none in dconfdb, where the example of /etc/dconfdb locks one of them.
has_dconf() {
    mkdir -p /etc/dconfdb ~/.config/dconfdb
    cp -r share/dconfdb/. /etc/dconfdb
    dconfdb update
    rm -f ~/.config/dconfdb/*
    dbus-run-session -- dconf reset -f /
    dbus-run-session -- dconf write $desktop/interface/clock-format "'24h'"
    dbus-run-session -- dconf write $desktop/lockdown/disable-command-line false
}
# shown KEY: its effective value in dconfdb
shown() {
    (cd ~/.config/dconfdb && dconfdb read -p /etc/dconfdb/profile "$desktop/$1")
}
