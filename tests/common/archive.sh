# archive: builds target/staticlib/libgaffreel.a. The gate does so once for all scripts, and sets GAFFREEL_ARCHIVE_BUILT. For the scripts in tests/ to source.
archive() {
    [ -n "${GAFFREEL_ARCHIVE_BUILT:-}" ] || bash tools/archive.sh
}
