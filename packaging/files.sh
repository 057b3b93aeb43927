# shellcheck shell=bash disable=SC2034,SC2154
# The files of a release, which the archive and the Debian packages both have. It is sourced, with `top` set.

# Times in a release are this one, so that the same files make the same bytes: 1980-01-01, the first that a zip file has.
RELEASE_TIME=315532800

put() { # MODE FILE PLACE
    install -D -m "$1" "$2" "$3"
}

# Puts the program and what goes with it below a folder, as below /usr.
put_files() { # PROGRAM FOLDER
    local page
    put 755 "$1" "$2/bin/confstore" &&
        put 755 "$top/clients/serve.py" "$2/lib/confstore/serve.py" &&
        put 644 "$top/clients/serve_abouts.py" "$2/lib/confstore/serve_abouts.py" &&
        put 644 "$top/clients/serve_check.py" "$2/lib/confstore/serve_check.py" &&
        put 644 "$top/clients/serve_clients.py" "$2/lib/confstore/serve_clients.py" &&
        put 644 "$top/clients/serve_metrics.py" "$2/lib/confstore/serve_metrics.py" &&
        put 644 "$top/clients/serve_watch.py" "$2/lib/confstore/serve_watch.py" &&
        put 644 "$top/clients/serve_socket.py" "$2/lib/confstore/serve_socket.py" &&
        put 644 "$top/packaging/confstore@.service" "$2/lib/systemd/system/confstore@.service" &&
        put 644 "$top/packaging/confstore.sysusers" "$2/lib/sysusers.d/confstore.conf" &&
        put 644 "$top/completions/confstore.bash" "$2/share/bash-completion/completions/confstore" &&
        put 644 "$top/completions/_confstore" "$2/share/zsh/vendor-completions/_confstore" &&
        put 644 "$top/completions/confstore.fish" "$2/share/fish/vendor_completions.d/confstore.fish" || return
    for page in "$top"/docs/man/*.[1-9]; do
        # put_ctl puts that of confstorectl.
        [ "${page##*/}" != confstorectl.1 ] || continue
        put 644 "$page" "$2/share/man/man${page##*.}/${page##*/}" || return
    done
}

# Puts the Python package into a folder for Python's modules.
put_python() { # FOLDER
    local file
    for file in "$top"/python/confstore/*.{py,html,typed}; do
        put 644 "$file" "$1/confstore/${file##*/}" || return
    done
}

# Puts confstorectl and what goes with it below a folder, but not the Python package, which it looks for in
# lib/confstore/python, and else where Python does.
put_ctl() { # FOLDER
    put 755 "$top/packaging/confstorectl" "$1/bin/confstorectl" &&
        put 644 "$top/completions/confstorectl.bash" "$1/share/bash-completion/completions/confstorectl" &&
        put 644 "$top/completions/_confstorectl" "$1/share/zsh/vendor-completions/_confstorectl" &&
        put 644 "$top/completions/confstorectl.fish" "$1/share/fish/vendor_completions.d/confstorectl.fish" &&
        put 644 "$top/docs/man/confstorectl.1" "$1/share/man/man1/confstorectl.1"
}
