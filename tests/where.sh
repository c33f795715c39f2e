# shellcheck shell=bash
# Sourced from the repository's root: where document 01 and the published text are (PW_PAPERS), and the package that
# serves the published Rust by pwscript's protocol (PW_ORACLE). Neither is part of the repository, and no test fails for
# want of them: a test that needs one is left out, and the gate says so.
papers=${PW_PAPERS:-../shared/docs}
oracle_manifest=${PW_ORACLE:-../shared/oracle}/Cargo.toml
