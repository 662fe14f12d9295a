# shellcheck shell=bash
# A PostgreSQL server of one's own, with the extension of postgres/: bin/postgres_checks and bench/postgres source it, behind common.sh.
# `pg_config` of PATH, or PG_CONFIG, says which PostgreSQL it is. Nothing of the system sees the server: socket, data and log lie in a
# folder, $room, that stop_server takes away, and it listens on no port.
#
# The server is a copy of the system's executable: it finds its folders share and lib from where it lies itself. There stand links to the
# system's files, and beside them those of the extension, by `make install DESTDIR=..`.

config=${PG_CONFIG:-pg_config}
compiler_flags="-O2 -fPIC -Wall -Wextra -Wno-unused-parameter -Wno-sign-compare -Wmissing-prototypes -Werror"

# What is missing here, or nothing.
missing() {
    local word
    command -v "$config" > /dev/null || { echo "no pg_config"; return; }
    for word in make "${CC:-cc}"; do
        command -v "$word" > /dev/null || { echo "no $word"; return; }
    done
    for word in postgres initdb pg_ctl psql; do
        [[ -x $("$config" --bindir)/$word ]] || { echo "no PostgreSQL server: $word"; return; }
    done
    [[ -f $("$config" --includedir-server)/postgres.h && -f $("$config" --pgxs) ]] || { echo "no headers of PostgreSQL's server"; return; }
    [[ $("$config" --version) =~ ([0-9]+) ]] && ((BASH_REMATCH[1] >= 15)) || { echo "PostgreSQL before 15"; return; }
    ((EUID != 0)) || command -v setpriv > /dev/null || echo "no setpriv, and a server doesn't run as root"
}

# make_room: the folder of everything, and who the server is where that can't be root.
make_room() {
    room=$(mktemp -d) || exit 1
    chmod 711 -- "$room"
    here=$room/installed
    data=$room/data
    programs=$("$config" --bindir)
    shared=$("$config" --sharedir)
    modules=$("$config" --pkglibdir)
    trap stop_server EXIT
    trap 'exit 130' INT TERM HUP
    server_user=
    if ((EUID == 0)); then
        for server_user in postgres nobody; do
            ! id "$server_user" > /dev/null 2>&1 || break
        done
    fi
}

stop_server() {
    [[ ! -f $data/postmaster.pid ]] || as_server "$here$programs/pg_ctl" -D "$data" -m immediate -w stop > /dev/null 2>&1
    rm -rf -- "$room"
}

# A command as the server's user, who isn't root.
as_server() (
    cd -- "$room" || exit 1
    if [[ -n $server_user ]]; then
        exec setpriv --reuid="$server_user" --regid="$(id -g "$server_user")" --clear-groups -- "$@"
    fi
    exec "$@"
)

# make_extension FOLDER [TARGET..]: `make` of a copy of postgres/ over the C library in FOLDER.
make_extension() {
    if [[ ! -d $room/tree ]]; then
        mkdir -- "$room/tree" && cp -r -- "$root/postgres" "$root/examples" "$room/tree/" || return 1
        rm -f -- "$room"/tree/postgres/*.o "$room"/tree/postgres/*.so
    fi
    make -s -C "$room/tree/postgres" "PG_CONFIG=$config" "RUSHTRIVET=$1" "CFLAGS=$compiler_flags" "${@:2}"
}

# copy_server: the server's files, beside those of the extension.
copy_server() {
    mkdir -p -- "$here$programs" "$here$shared" "$here$modules" && mkdir -- "$data" "$room/socket" &&
        cp -- "$programs/postgres" "$programs/initdb" "$programs/pg_ctl" "$here$programs/" &&
        cp -rsn -- "$shared/." "$here$shared/" && cp -rsn -- "$modules/." "$here$modules/" || return 1
    [[ -z $server_user ]] || chown -- "$server_user" "$data" "$room/socket"
}

make_cluster() {
    as_server "$here$programs/initdb" -D "$data" -U postgres -A trust -E UTF8 --locale=C -N
}

# start_server [SETTING..]: as `-c work_mem=64MB`; psql and its like find it from then on.
start_server() {
    unset PGPORT PGDATABASE PGSERVICE PGOPTIONS PGHOSTADDR
    export PGHOST=$room/socket PGUSER=postgres
    as_server "$here$programs/pg_ctl" -D "$data" -w -l "$room/socket/log" \
        -o "-c listen_addresses= -c unix_socket_directories=$room/socket -c fsync=off $*" start
}

end_server() {
    as_server "$here$programs/pg_ctl" -D "$data" -m fast -w stop
}
