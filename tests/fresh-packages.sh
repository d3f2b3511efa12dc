# The packages of target/packages, for scripts that source this file: made where they are missing or older than what they are made from.

fresh_packages() {
    local from=(bin bindings docs examples include package README.md CHANGELOG.md target/staticlib/libfantanolive.a target/program/fantanolive{,-agree})
    [ ! -d target/java ] || from+=(target/java)
    if [ -f target/packages/SHA256SUMS ] && [ -z "$(find "${from[@]}" -type f -newer target/packages/SHA256SUMS -print -quit)" ]; then return 0; fi
    bin/build-shared && bin/build-docs && bin/package
}
