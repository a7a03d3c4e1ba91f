# What the program is made of, for ./lwaftr and ./build, which read this file with . at the top of the repository.

# The folders of the crates that lwaftr_main stands on, by crates.txt.
folders() {
    awk -F: '
        { sub(/#.*/, "") }
        NF > 1 { stands[$1] = $2; listed[NR] = $1 }
        END {
            wanted["lwaftr_main"]
            do {
                more = 0
                for (name in stands) if (name in wanted && !(name in done)) {
                    done[name]; more = 1
                    count = split(stands[name], below, " ")
                    for (i = 1; i <= count; i++) if (below[i] in stands) wanted[below[i]]
                }
            } while (more)
            for (i = 1; i <= NR; i++) if (listed[i] in done)
                print "crates/" listed[i] "/src crates/" listed[i] "/specs crates/" listed[i] "/proofs"
        }' crates.txt
}

# Kind, size, time of change and name of each file and folder of them. A time of change (ctime) can't be set back.
listing() {
    find $(folders) crates.txt HANDLES release/KIT -printf '%y %s %C@ %p\n' 2>/dev/null
}

# The SHA-256 over the names and bytes of these files.
sources() {
    find $(folders) crates.txt HANDLES release/KIT -type f -print0 2>/dev/null | LC_ALL=C sort -z | xargs -0 sha256sum | sha256sum | cut -c 1-64
}
