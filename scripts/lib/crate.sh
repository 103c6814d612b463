# shellcheck shell=bash disable=SC2154
# For the scripts one folder up, which set root: the crate for Rust as it is published.
#
#     crate_folder TO    copies it to a new folder, with the assembly and the licences, which cargo packs only from its own
#                        folder; links to them there would stop `rt ci`

crate_folder() {
    cp -r "$root/bindings/rust" "$1"
    cp "$root"/LICENSE-* "$1"
    cp -r "$root/portable" "$1/asm"
}
